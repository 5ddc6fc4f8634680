#include <stdio.h>
#include <stdlib.h>
#include <string.h>
#include <stdint.h>
#include <time.h>
uint32_t forthwn_shortest(const uint8_t*,size_t,uint16_t*,size_t,uint16_t*,size_t,int64_t*);
static double now(){struct timespec a;clock_gettime(CLOCK_MONOTONIC,&a);return a.tv_sec*1e6+a.tv_nsec/1e3;}
static uint8_t B[60000];static size_t n;
static void p16(int v){B[n++]=v;B[n++]=v>>8;}static void p32(int v){p16(v&65535);p16((v>>16)&65535);}
int main(int c,char**v){int N=1024;double worst=0;int ws=0;
 for(int seed=1;seed<=40;seed++){srand(seed);int at[1024],pos[1024];for(int i=0;i<N;i++)at[i]=i;for(int i=N-1;i>0;i--){int j=rand()%(i+1);int t=at[i];at[i]=at[j];at[j]=t;}for(int i=0;i<N;i++)pos[at[i]]=i;
  int W[4]={0,1,52,103};int m=0;for(int s=0;s<N;s++)for(int d=1;d<4;d++)if(pos[s]+d<N)m++;m++;
  n=0;p16(8);p16(1);p16(N);p16(m);p16(N);p16(at[0]);
  for(int s=0;s<N;s++){p16(6);p16(2);p16(s);p32(900*(N-1-pos[s]));}
  for(int s=0;s<N;s++){for(int d=1;d<4;d++)if(pos[s]+d<N){p16(12);p16(3);p16(s);p16(1);p16(1);p16(at[pos[s]+d]);p32(W[d]);}
   if(pos[s]==N-1){p16(12);p16(3);p16(s);p16(1);p16(1);p16(at[0]);p32(1000);}}
  uint16_t a[1023],l[1023];int64_t told[3];double best=1e18;uint32_t r=0;for(int k=0;k<5;k++){double t=now();r=forthwn_shortest(B,n,a,1023,l,1023,told);t=now()-t;if(t<best)best=t;}
  if(best>worst){worst=best;ws=seed;}if(seed<3)printf("seed %d refusal %u cost %ld arcs %ld: %.0f us\n",seed,r,(long)told[0],(long)told[1],best);}
 printf("worst of 40: seed %d %.0f us\n",ws,worst);}
