#include <stdint.h>
#include <stddef.h>
typedef struct { const void *p; size_t n; } S;
#define s(x) S x##_ = { x, x##_n }
uint32_t p_refusal(S*); uint32_t p_read(S*,S*,S*,S*,S*,uint32_t*);
uint32_t p_write(uint32_t,uint32_t,uint32_t,uint32_t,S*,S*,S*,S*,S*,uint32_t*);
uint32_t p_compose(S*,S*,S*,S*,S*,uint32_t*); uint32_t p_apply(S*,S*,S*,S*,S*,uint32_t*);
uint32_t p_trim(S*,S*,S*,uint32_t*); uint32_t p_count(S*,uint32_t*); uint32_t p_nth(S*,uint32_t,S*,S*,int64_t*);
uint32_t p_shortest(S*,S*,S*,int64_t*); uint32_t p_distance(S*,S*) __attribute__((weak)); uint32_t p_readings(S*,S*,S*,uint32_t*);
uint32_t p_list(S*,S*,S*,S*,uint32_t*,uint32_t*);
#define A(x) const void*x,size_t x##_n
uint32_t forthwn_refusal(A(a)){s(a);return p_refusal(&a_);}
uint32_t forthwn_read(A(a),A(b),A(c),A(d),A(e),uint32_t*h){s(a);s(b);s(c);s(d);s(e);return p_read(&a_,&b_,&c_,&d_,&e_,h);}
uint32_t forthwn_write(uint32_t n,uint32_t m,uint32_t f,uint32_t st,A(a),A(b),A(c),A(d),A(e),uint32_t*l){s(a);s(b);s(c);s(d);s(e);return p_write(n,m,f,st,&a_,&b_,&c_,&d_,&e_,l);}
uint32_t forthwn_compose(A(a),A(b),A(c),A(d),A(e),uint32_t*l){s(a);s(b);s(c);s(d);s(e);return p_compose(&a_,&b_,&c_,&d_,&e_,l);}
uint32_t forthwn_apply(A(a),A(b),A(c),A(d),A(e),uint32_t*l){s(a);s(b);s(c);s(d);s(e);return p_apply(&a_,&b_,&c_,&d_,&e_,l);}
uint32_t forthwn_trim(A(a),A(b),A(c),uint32_t*l){s(a);s(b);s(c);return p_trim(&a_,&b_,&c_,l);}
uint32_t forthwn_count(A(a),uint32_t*l){s(a);return p_count(&a_,l);}
uint32_t forthwn_nth(A(a),uint32_t k,A(b),A(c),int64_t*t){s(a);s(b);s(c);return p_nth(&a_,k,&b_,&c_,t);}
uint32_t forthwn_shortest(A(a),A(b),A(c),int64_t*t){s(a);s(b);s(c);return p_shortest(&a_,&b_,&c_,t);}
uint32_t forthwn_distance(A(a),A(b)){s(a);s(b);return p_distance(&a_,&b_);}
uint32_t forthwn_readings(A(a),A(b),A(c),uint32_t*l){s(a);s(b);s(c);return p_readings(&a_,&b_,&c_,l);}
uint32_t forthwn_list(A(a),A(b),A(c),A(d),uint32_t*l,uint32_t*said){s(a);s(b);s(c);s(d);return p_list(&a_,&b_,&c_,&d_,l,said);}
