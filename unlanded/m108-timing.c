#include <stdio.h>
#include <stdlib.h>
#include <string.h>
#include <time.h>
#include "chidukwore.h"
static double now(void){struct timespec t;clock_gettime(CLOCK_MONOTONIC,&t);return t.tv_sec*1e6+t.tv_nsec/1e3;}
static uint8_t text[65536], recall[65536], held[65536], side[4096], screen[24*80], buf[140000], src[140000], want[140000], save[65536];
#ifndef SIDE
#define SIDE 1024
#endif
static int allowed(int b){return b==10||(b>=32&&b<=126);}
int main(void){
  unsigned seed=1; long n_ok=0,n_text=0,n_long=0,n_room=0;
  for(long it=0;it<400000;it++){
    size_t T=1+rand_r(&seed)%12, n=rand_r(&seed)%16, B=rand_r(&seed)%26;
    for(size_t i=0;i<n;i++){int k=rand_r(&seed)%12; src[i]=k<4?10:k<6?13:k<11?'a':(rand_r(&seed)%256); if(k<4&&i&&rand_r(&seed)%2) src[i-1]=13;}
    size_t m=0; size_t bad=n; 
    for(size_t i=0;i<n;i++){ if(!allowed(src[i])&&!(src[i]==13&&i+1<n&&src[i+1]==10)){bad=i;break;} }
    for(size_t i=0;i<n;i++){ if(src[i]==13&&i+1<n&&src[i+1]==10) continue; want[m++]=src[i]; }
    memset(text,'x',T); 
    struct chidukwore_transfer t=chidukwore_import(src,n,text,T);
    size_t code=bad<n?3:m>T?2:0;
    if(t.code!=code||t.place!=(code==3?bad:0)||t.count!=(code?0:m)){printf("import differs\n");return 1;}
    if(code){for(size_t i=0;i<T;i++)if(text[i]!='x'){printf("changed\n");return 1;} if(code==3)n_text++;else n_long++; continue;}
    for(size_t i=0;i<T;i++) if(text[i]!=(i<m?want[i]:0)){printf("bytes differ\n");return 1;}
    n_ok++;
    struct chidukwore_reply r=chidukwore_open(t.count,2,5,text,T,recall,T,held,T,side,SIDE,screen,10);
    if(r.answer.code){printf("open %zu\n",r.answer.code);return 1;}
    for(int k=rand_r(&seed)%4;k;k--) r=chidukwore_key(r.record,1,0,1,rand_r(&seed)%5,text,T,recall,T,held,T,side,SIDE,screen,10);
    memset(buf,'y',B);
    struct chidukwore_transfer s=chidukwore_save(r.record,text,T,recall,T,held,T,side,SIDE,buf,B);
    if(m>B){ if(s.code!=7||s.count) {printf("save room\n");return 1;} for(size_t i=0;i<B;i++) if(buf[i]!='y'){printf("save wrote\n");return 1;} }
    else { if(s.code||s.count!=m||memcmp(buf,want,m)){printf("save differs\n");return 1;} for(size_t i=m;i<B;i++) if(buf[i]!='y'){printf("save wrote\n");return 1;} }
    size_t e=0; static uint8_t ex[64]; for(size_t i=0;i<m;i++){ if(want[i]==10) ex[e++]=13; ex[e++]=want[i]; }
    memset(buf,'y',B);
    s=chidukwore_export(r.record,text,T,recall,T,held,T,side,SIDE,buf,B);
    if(e>B){ n_room++; if(s.code!=7||s.count) {printf("export room\n");return 1;} for(size_t i=0;i<B;i++) if(buf[i]!='y'){printf("export wrote\n");return 1;} }
    else { if(s.code||s.count!=e||memcmp(buf,ex,e)){printf("export differs\n");return 1;} for(size_t i=e;i<B;i++) if(buf[i]!='y'){printf("export wrote\n");return 1;} }
    r.record.mode=2; s=chidukwore_export(r.record,text,T,recall,T,held,T,side,SIDE,buf,0); if(s.code!=4){printf("mode %zu\n",s.code);return 1;}
    s=chidukwore_save(r.record,text,T,recall,T,held,T,side,SIDE-1,buf,0); if(s.code!=1){printf("size %zu\n",s.code);return 1;}
  }
  printf("agree: %ld taken, %ld TEXT, %ld LONG, %ld ROOM\n",n_ok,n_text,n_long,n_room);
  for(int L=20;L<=60000;L=L==20?40:L==40?80:60000){
    size_t n=0; while(n+L+2<=65536){ for(int i=0;i<L;i++) src[n++]='a'+i%26; src[n++]=13; src[n++]=10; }
    double b1=1e9,b2=1e9,b3=1e9; struct chidukwore_transfer t; struct chidukwore_reply r;
    for(int k=0;k<200;k++){ double a=now(); t=chidukwore_import(src,n,text,65536); double d=now()-a; if(d<b1)b1=d; }
    r=chidukwore_open(t.count,24,80,text,65536,recall,65536,held,65536,side,SIDE,screen,1920);
    if(r.answer.code){printf("open refused %zu\n",r.answer.code);continue;}
    for(int k=0;k<200;k++){ double a=now(); t=chidukwore_export(r.record,text,65536,recall,65536,held,65536,side,SIDE,buf,140000); double d=now()-a; if(d<b2)b2=d; }
    struct chidukwore_transfer s;
    for(int k=0;k<200;k++){ double a=now(); s=chidukwore_save(r.record,text,65536,recall,65536,held,65536,side,SIDE,buf,140000); double d=now()-a; if(d<b3)b3=d; }
    printf("lines of %d: import %zu bytes %.1f us, export %zu %.1f us, save %zu %.1f us\n",L,n,b1,t.count,b2,s.count,b3);
  }
  return 0;
}
