import importlib.machinery, importlib.util, pathlib, sys, shutil, tempfile
root=pathlib.Path(sys.argv[1])
loader=importlib.machinery.SourceFileLoader('ed',str(root/'.ci/checks/edits'))
spec=importlib.util.spec_from_loader('ed',loader); ed=importlib.util.module_from_spec(spec); loader.exec_module(ed)
for f in sorted(list((root/'edits').glob('*/*.edit'))+list((root/'crates').glob('*/must-fail/*.edit'))):
    crate=f.parent.name if f.parent.name!='must-fail' else f.parent.parent.name
    e=ed.read_edit(crate,f)
    for where,old,new in e.changes:
        p=root/'crates'/crate/where
        n=p.read_text(encoding='utf-8').count(old) if p.is_file() else -1
        if n!=1: print(crate,f.stem,where,n,repr(old)[:120])
    if e.at and not (root/'crates'/crate/e.at[0]).exists(): print('AT gone',crate,f.stem,e.at)
