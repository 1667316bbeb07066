# Of the lists of tools/forms those that need more than a pattern; arguments: ROOT WHAT
import re,glob,collections,difflib,sys
root,what=sys.argv[1],sys.argv[2]
def files():
    for p in sorted(glob.glob(root+'/crates/*/src/**/*.rt',recursive=True)):
        yield p, p.split('crates/')[1].replace('/src/','/')
def functions():
    for p,short in files():
        s=re.sub(r'//[^\n]*','',open(p).read())
        for m in re.finditer(r'\bfn\s+([a-z_0-9]+)\s*(<[^({]*>)?\(',s):
            i=m.end(); depth=1
            while depth: depth+={'(':1,')':-1}.get(s[i],0); i+=1
            params=re.sub(r'\s+',' ',s[m.end():i-1])
            # the body: the first '{' at a line's start (after clauses) or at the line's end
            b=re.compile(r'(^|[^\S\n]|\n)\{[ \t]*\n').search(s,i-1)
            if not b: continue
            sig=s[i:b.start()]
            j=b.end(); depth=1
            while depth and j<len(s): depth+={'{':1,'}':-1}.get(s[j],0); j+=1
            yield short,m.group(1),params,sig,s[b.end():j-1]
if what=='twins':
    fs=[(f,n,re.findall(r'\w+|[^\s\w]',re.sub(r'b?"[^"]*"','""',b))) for f,n,_,_,b in functions()]
    for i in range(len(fs)):
        for k in range(i+1,len(fs)):
            a,b=fs[i],fs[k]
            if len(a[2])<8 or len(b[2])<8: continue
            r=difflib.SequenceMatcher(None,a[2],b[2],autojunk=False).ratio()
            same=a[1]==b[1]
            pair=re.sub(r'\d','',a[1])==re.sub(r'\d','',b[1])
            if r>=0.75 or (r>=0.5 and (same or pair)): print('%.2f'%r,a[0]+': '+a[1],'|',b[0]+': '+b[1])
if what=='structs':
    st=[]
    for p,short in files():
        for m in re.finditer(r'struct\s+(\w+)[^{;]*\{([^}]*)\}',open(p).read()):
            st.append((short,m.group(1),re.findall(r'(\w+):',m.group(2))))
    for i in range(len(st)):
        for k in range(i+1,len(st)):
            c=set(st[i][2])&set(st[k][2])
            if len(c)>=2 and len(c)*2>=min(len(st[i][2]),len(st[k][2])): print(st[i][0]+': '+st[i][1],'|',st[k][0]+': '+st[k][1],'| both:',', '.join(sorted(c)))
if what=='params':
    pairs=collections.defaultdict(list)
    for f,n,params,_,_ in functions():
        ps=[re.sub(r'^mut ','',x.strip()) for x in params.split(',') if ':' in x]
        for k in range(2,len(ps)+1):
            for i in range(len(ps)-k+1): pairs[tuple(ps[i:i+k])].append(f+': '+n)
    rows=[(len(v),k,v) for k,v in pairs.items() if len(v)>=3]
    for n,k,v in sorted(rows,key=lambda r:(-r[0],r[1])):
        if any(set(v)==set(v2) and len(k2)>len(k) and ' '.join(k) in ' '.join(k2) for _,k2,v2 in rows): continue
        print(n,', '.join(k),'|',', '.join(v))
if what=='bools':
    for f,n,params,sig,_ in functions():
        if re.search(r': bool',params): print(f+': '+n+'('+params+')')
if what=='loops':
    for p,short in files():
        fn=''
        for i,l in enumerate(open(p),1):
            m=re.search(r'\bfn\s+(\w+)',l)
            if m: fn=m.group(1)
            if re.search(r'^\s*(while|loop|for)\b',l): print(f'{short}:{i}: {fn}: {l.strip()}')
if what=='kinds':
    names='stage edition kind index_kind part form tag dimension special wrap mipmap filter component els_met number'.split()
    fields=collections.defaultdict(list); params=collections.defaultdict(list)
    for p,short in files():
        for m in re.finditer(r'struct\s+(\w+)[^{;]*\{([^}]*)\}',re.sub(r'//[^\n]*','',open(p).read())):
            for n,t in re.findall(r'(\w+): ([^,\n]+)',m.group(2)):
                if n in names and re.fullmatch(r'u(8|16|32)|\[u8; 16\]',t): fields[n].append(short+': '+m.group(1))
    for f,n,ps,_,_ in functions():
        for x,t in re.findall(r'(\w+): ([^,]+)',ps):
            if x in names and re.fullmatch(r'u(8|16|32)',t.strip()): params[x].append(f+': '+n)
    for n in names: print(f'{n}: fields {len(fields[n])}: '+'; '.join(fields[n])+f' | parameters {len(params[n])}: '+'; '.join(params[n]))
