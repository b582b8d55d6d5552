#include <stdint.h>
#include <stdbool.h>
#include <stdio.h>
#include <stdlib.h>
#include <time.h>
#include "penne.h"
__attribute__((section(".text.aaa"),used)) static void pad(void){ __asm__ volatile(".skip " PAD ", 0x90"); }
static uint8_t kinds[65536], types[65536], nk[131075]; static uint32_t nl[131075], reply[6];
static double now(void){struct timespec t; clock_gettime(CLOCK_MONOTONIC,&t); return t.tv_sec*1e9+t.tv_nsec;}
int main(void){
  int sizes[]={10,100,1000,65535};
  for(int i=0;i<65536;i++){kinds[i]=1+rand()%60;types[i]=rand()%15;}
  for(int s=0;s<4;s++){
    int n=sizes[s]; uint8_t keep=kinds[n-1]; kinds[n-1]=0;
    int reps=200000/(n+30)+1; 
    for(int e=0;e<2;e++){
      double best=1e18;
      for(int k=0;k<300;k++){
        double a=now();
        for(int r=0;r<reps;r++){
          if(e==0) penne_parse_expression(kinds,n,types,n,n,nk,131075,nl,131075,0,reply,6);
          else penne_parse_word_declaration(kinds,n,types,n,n,nk,131075,nl,131075,0,0,0,47,reply,6);
        }
        double b=(now()-a)/reps; if(b<best)best=b;
      }
      printf("%d/%d %.2f  ",n,e,best);
    }
    kinds[n-1]=keep;
  }
  printf("reply %u\n",reply[1]);
}
