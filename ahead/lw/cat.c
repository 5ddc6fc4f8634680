#include <stdio.h>
#include <stdlib.h>
#include <string.h>
#include <stdint.h>
#include <time.h>
uint32_t forthwn_apply(const uint16_t*,size_t,const uint8_t*,size_t,uint8_t*,size_t,uint16_t*,size_t,uint32_t*,size_t,uint32_t*);
static uint8_t J[65536],T[59404]; static uint16_t O[6144],C[64]; static uint32_t S[1024];
static double now(){struct timespec a;clock_gettime(CLOCK_MONOTONIC,&a);return a.tv_sec*1e9+a.tv_nsec;}
static void p2(uint8_t*b,int v){b[0]=v;b[1]=v>>8;}
static size_t mk(int where){ // where: -1 none, 0 first, else last
 uint8_t*b=J; p2(b,8);p2(b+2,1);p2(b+4,1);p2(b+6,3072);p2(b+8,1);p2(b+10,0);
 memset(b+12,0,10);p2(b+12,6);p2(b+14,2);
 for(int i=0;i<3072;i++){uint8_t*a=b+22+16*i;memset(a,0,16);p2(a,12);p2(a+2,3);int l=i+1;int any=(where==0&&i==0)||(where==1&&i==3071);p2(a+6,any?65535:l);p2(a+8,any?65535:l);}
 return 22+16*3072;}
int main(int c,char**v){int rounds=atoi(v[1]);
 for(int where=-1;where<2;where++)for(int hit=1;hit>=0;hit--){size_t n=mk(where);for(int i=0;i<64;i++)C[i]=hit?(7+i*47)%3000+2:40000+i;uint32_t len,r=0;double best=1e18;
  for(int i=0;i<rounds;i++){double a=now();r=forthwn_apply(C,64,J,n,T,59404,O,3072,S,1024,&len);double b=now();if(b-a<best)best=b-a;}
  printf("  %s %s %.1f(%u)",where<0?"named":where?"last":"first",hit?"hit":"miss",best/1000,r);}
 printf("\n");}
