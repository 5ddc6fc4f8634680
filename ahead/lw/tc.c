// compose alone, as bench/reader.rs: medians of 301 samples; least of ROUNDS
#include <stdio.h>
#include <stdlib.h>
#include <string.h>
#include <stdint.h>
#include <time.h>
uint32_t forthwn_compose(const uint8_t*,size_t,const uint8_t*,size_t,uint8_t*,size_t,uint16_t*,size_t,uint32_t*,size_t,uint32_t*);
uint32_t forthwn_apply(const uint16_t*,size_t,const uint8_t*,size_t,uint8_t*,size_t,uint16_t*,size_t,uint32_t*,size_t,uint32_t*);
static uint8_t *L,*R,*J,*T; static uint16_t *O,*C; static uint32_t *S;
static size_t rd(const char*d,const char*f,void*b,size_t m){char p[300];snprintf(p,300,"%s/%s",d,f);FILE*h=fopen(p,"rb");if(!h){perror(p);exit(1);}size_t n=fread(b,1,m,h);fclose(h);return n;}
static double now(){struct timespec a;clock_gettime(CLOCK_MONOTONIC,&a);return a.tv_sec*1e9+a.tv_nsec;}
static int cmp(const void*a,const void*b){double x=*(double*)a,y=*(double*)b;return x<y?-1:x>y;}
int main(int c,char**v){int rounds=atoi(v[1]);L=malloc(65536);R=malloc(65536);J=malloc(65536);T=malloc(59404);O=malloc(12288);C=malloc(128);S=malloc(4096);
 for(int w=2;w<c;w++){size_t l=rd(v[w],"left.tab",L,65536),r=rd(v[w],"right.tab",R,65536),j=rd(v[w],"joined.tab",J,65536),k=rd(v[w],"code.lab",C,128)/2;uint32_t len;
  double best[2]={1e18,1e18};uint64_t h=1469598103934665603ull;
  for(int q=0;q<rounds;q++)for(int a=0;a<2;a++){double t[301];
   double b0=now();int n=0;while(now()-b0<3e6){if(a)forthwn_apply(C,k,J,j,T,59404,O,3072,S,1024,&len);else forthwn_compose(L,l,R,r,T,59404,O,6144,S,1024,&len);n++;}
   double each=(now()-b0)/n;int batch=20000/each;if(batch<1)batch=1;
   for(int i=0;i<301;i++){double b=now();for(int z=0;z<batch;z++){if(a)forthwn_apply(C,k,J,j,T,59404,O,3072,S,1024,&len);else forthwn_compose(L,l,R,r,T,59404,O,6144,S,1024,&len);}t[i]=(now()-b)/batch;}
   qsort(t,301,8,cmp);if(t[150]<best[a])best[a]=t[150];
   if(q==0){for(size_t z=0;z<59404;z++)h=(h^T[z])*1099511628211ull;if(!a)for(int z=0;z<6144;z++)h=(h^O[z])*1099511628211ull;h+=len;}}
  printf("  %s %.0f %.0f (%04x)",strrchr(v[w],'/')+1,best[0],best[1],(unsigned)(h&65535));}
 printf("\n");}
