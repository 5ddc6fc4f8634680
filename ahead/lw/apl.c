#include <stdio.h>
#include <stdlib.h>
#include <stdint.h>
uint32_t forthwn_apply(const uint16_t*,size_t,const uint8_t*,size_t,uint8_t*,size_t,uint16_t*,size_t,uint32_t*,size_t,uint32_t*);
static uint8_t J[65536],T[59404]; static uint16_t O[6144],C[64]; static uint32_t S[1024];
static size_t rd(const char*d,const char*f,void*b,size_t m){char p[300];snprintf(p,300,"%s/%s",d,f);FILE*h=fopen(p,"rb");if(!h){perror(p);exit(1);}size_t n=fread(b,1,m,h);fclose(h);return n;}
int main(int c,char**v){size_t j=rd(v[1],"joined.tab",J,65536),k=rd(v[1],"code.lab",C,128)/2;uint32_t len;for(int i=0;i<atoi(v[2]);i++)forthwn_apply(C,k,J,j,T,59404,O,3072,S,1024,&len);return 0;}
