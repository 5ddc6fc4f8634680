#include <stdio.h>
#include <stdlib.h>
#include <stdint.h>
uint32_t forthwn_compose(const uint8_t*,size_t,const uint8_t*,size_t,uint8_t*,size_t,uint16_t*,size_t,uint32_t*,size_t,uint32_t*);
static uint8_t L[65536],R[65536],T[59404]; static uint16_t O[6144]; static uint32_t S[1024];
static size_t rd(const char*d,const char*f,void*b,size_t m){char p[300];snprintf(p,300,"%s/%s",d,f);FILE*h=fopen(p,"rb");size_t n=fread(b,1,m,h);fclose(h);return n;}
int main(int c,char**v){size_t l=rd(v[1],"left.tab",L,65536),r=rd(v[1],"right.tab",R,65536);uint32_t len;int n=atoi(v[2]);for(int i=0;i<n;i++)forthwn_compose(L,l,R,r,T,59404,O,6144,S,1024,&len);return 0;}
