# moves the last word of a line over 160 to the front of the next line, until all fit
import sys,pathlib,re
for p in map(pathlib.Path,sys.argv[1:]):
    ls=p.read_text().split('\n'); i=0
    while i<len(ls):
        l=ls[i]
        if len(l)>160 and not l.startswith('|'):
            head,w=l.rsplit(' ',1)
            nxt=ls[i+1] if i+1<len(ls) else ''
            ind=re.match(r' *',nxt).group(0)
            if nxt.strip()=='' or re.match(r' *(- |#|\||\d+\. )',nxt):
                ind=re.match(r' *',l).group(0)+('  ' if l.lstrip().startswith('- ') else '')
                ls[i]=head; ls.insert(i+1,ind+w)
            else:
                ls[i]=head; ls[i+1]=ind+w+' '+nxt.lstrip()
            continue
        i+=1
    p.write_text('\n'.join(ls))
