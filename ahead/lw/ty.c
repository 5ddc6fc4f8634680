// cycles of compose and apply by a spin of known length beside each call; medians of N samples
#include <stdio.h>
#include <stdlib.h>
#include <string.h>
#include <stdint.h>
#include <x86intrin.h>
uint32_t forthwn_compose(const uint8_t*,size_t,const uint8_t*,size_t,uint8_t*,size_t,uint16_t*,size_t,uint32_t*,size_t,uint32_t*);
uint32_t forthwn_apply(const uint16_t*,size_t,const uint8_t*,size_t,uint8_t*,size_t,uint16_t*,size_t,uint32_t*,size_t,uint32_t*);
static uint8_t *L,*R,*J,*T; static uint16_t *O,*C; static uint32_t *S;
static size_t rd(const char*d,const char*f,void*b,size_t m){char p[300];snprintf(p,300,"%s/%s",d,f);FILE*h=fopen(p,"rb");if(!h){perror(p);exit(1);}size_t n=fread(b,1,m,h);fclose(h);return n;}
static int cmp(const void*a,const void*b){double x=*(double*)a,y=*(double*)b;return x<y?-1:x>y;}
#define N 4000
static inline void spin(void){uint64_t x=1;for(int i=0;i<N;i++){__asm__ volatile("imul %0,%0":"+r"(x));}}
int main(int c,char**v){int n=atoi(v[1]);L=malloc(65536);R=malloc(65536);J=malloc(65536);T=malloc(59404);O=malloc(12288);C=malloc(128);S=malloc(4096);double*t=malloc(n*8);
 for(int w=2;w<c;w++){size_t l=rd(v[w],"left.tab",L,65536),r=rd(v[w],"right.tab",R,65536),j=rd(v[w],"joined.tab",J,65536),k=rd(v[w],"code.lab",C,128)/2;uint32_t len;double m[2];
  for(int a=0;a<2;a++){int q=0;for(int i=-200;i<n;i++){
   uint64_t t0=__rdtsc();spin();uint64_t t1=__rdtsc();
   if(a)forthwn_apply(C,k,J,j,T,59404,O,3072,S,1024,&len);else forthwn_compose(L,l,R,r,T,59404,O,6144,S,1024,&len);
   uint64_t t2=__rdtsc();spin();uint64_t t3=__rdtsc();
   double f=((double)(t1-t0)+(double)(t3-t2))/(2.0*3*N); if(i>=0)t[q++]=(t2-t1)/f;}
   qsort(t,q,8,cmp);m[a]=t[q/4];}
  printf("  %s %.0f %.0f",strrchr(v[w],'/')+1,m[0],m[1]);}
 printf("\n");}
