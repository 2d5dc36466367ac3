import re, pathlib, sys
root=pathlib.Path(sys.argv[1]); p=root/'docs/PROVED.md'
def read(f):
    ls=f.read_text(encoding='utf-8').split('\n')
    what=ls[0][2:]; at=pin=None
    for l in ls:
        if l.startswith('# at: '): at=l[6:].split()
        if l.startswith('# pin: '): pin=l[7:].split()
    return what,at,pin
defs=[];code=[];n=0
for crate in ('gap','editor','keyboard','window','window_c','bench'):
    fs=sorted(list((root/'edits'/crate).glob('*.edit'))+list((root/'crates'/crate/'must-fail').glob('*.edit')),key=lambda f:f.stem)
    for f in fs:
        what,at,pin=read(f); n+=1
        what=re.sub(r'^the definition: ','',what)
        if pin: defs.append(f"| {crate}: {what} | `{pin[1]}`, {crate}/{pin[0]} |")
        else: code.append(f"| {crate}: {what} | {crate}/{at[0]} |")
s=p.read_text(encoding='utf-8')
s=re.sub(r'The gate tries \d+ wrong programs',f'The gate tries {n} wrong programs',s)
i=s.index('| Edit of a definition | Pinned by |')
s=s[:i]+'| Edit of a definition | Pinned by |\n|---|---|\n'+'\n'.join(defs)+'\n\n| Edit of the code | The first fact that fails stands in |\n|---|---|\n'+'\n'.join(code)+'\n'
p.write_text(s,encoding='utf-8'); print(n,len(defs),len(code))
