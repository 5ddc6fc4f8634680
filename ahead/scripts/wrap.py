import re,sys
from pathlib import Path
root=Path(sys.argv[1])
def split_use(l):
    m=re.match(r"^((?:ghost )?use \S+?\.)\{(.*)\}(;?)$", l)
    if not m: return None
    names=[x.strip() for x in m.group(2).split(",")]
    k=len(names)//2
    return [m.group(1)+"{"+", ".join(names[:k])+"}"+m.group(3), m.group(1)+"{"+", ".join(names[k:])+"}"+m.group(3)]
left=[]
for p in sorted(root.glob('crates/**/*')):
    if p.suffix not in ('.rt','.antt') or not p.is_file(): continue
    lines=p.read_text().split('\n'); out=[]; ch=False
    for l in lines:
        if len(l)<=160: out.append(l); continue
        ch=True
        u=split_use(l)
        if u: out+=u; continue
        ind=len(l)-len(l.lstrip())
        m=re.match(r"^(\s*)(--|//) ", l)
        if m:
            pre=m.group(0); cut=l.rfind(" ",0,159); out+=[l[:cut], pre+l[cut+1:]]; continue
        best=-1
        for tok in (" → "," × "," ∙ ",", "," (",):
            i=l.rfind(tok,0,156)
            if i>ind+30: best=max(best,i) if tok in (" → "," × ") else best
            if best<0 and i>ind+30: best=i+ (1 if tok==", " else 0)
        if best<0: out.append(l); left.append((p,l)); continue
        cont=l.lstrip()[:1] in "→×∙("
        out+=[l[:best].rstrip(), " "*(ind if cont else ind+4)+l[best:].strip()]
    if ch: p.write_text("\n".join(out))
for p,l in left: print("left",p,l[:100])
