import re,os
n=0
for d,_,fs in os.walk('crates'):
    if '/src' not in d: continue
    for f in fs:
        if not f.endswith('.rt'): continue
        p=os.path.join(d,f); t=open(p).read()
        def one(m):
            body=m[0]
            return body if re.search(r"&('\w+ )?mut",body) else body.replace('#[derive(Drop)]','#[derive(Clone, Copy)]',1)
        new=re.sub(r'#\[derive\(Drop\)\]\n(?:pub )?(?:struct|enum) [^{;]*(?:\{.*?\n\}|;)',one,t,flags=re.S)
        if new!=t: n+=1; open(p,'w').write(new)
print(n)
