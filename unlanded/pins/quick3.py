import os, sys, pathlib, shutil, subprocess, time, re, importlib.machinery, importlib.util
PINS = pathlib.Path(os.environ['PINS'])
loader = importlib.machinery.SourceFileLoader('edits', str(PINS / 'edits'))
spec = importlib.util.spec_from_loader('edits', loader); m = importlib.util.module_from_spec(spec); loader.exec_module(m)
root = PINS / 'strip'; crate = root / 'crates/bench'; clean = PINS / 'clean'; warm = PINS / 'warm'
inc = root / 'target/inc/bench'
src = PINS / 'snap'
if not os.environ.get('NOBASE'): shutil.rmtree(src, ignore_errors=True); shutil.copytree(os.environ['FROM'], src)
def restore():
    for part in ('specs', 'proofs'):
        shutil.rmtree(crate / part, ignore_errors=True)
    shutil.copytree(src / 'specs', crate / 'specs')
    (crate / 'proofs').mkdir()
    for part in ('Laws', 'Theorems'):
        shutil.copytree(src / 'proofs' / part, crate / 'proofs' / part); shutil.copy(src / 'proofs' / f'{part}.antt', crate / 'proofs')
    shutil.copy(src / 'proofs/Lib.antt', crate / 'proofs')
def dev():
    r = subprocess.run(['rt', 'dev', 'bench'], cwd=root, stdin=subprocess.DEVNULL, stdout=subprocess.PIPE, stderr=subprocess.STDOUT)
    return r.returncode, r.stdout.decode('utf-8', 'replace')
restore()
began = time.monotonic()
base = not os.environ.get('NOBASE')
status, said = dev() if base else (0, '')
if base: print('as it stands:', status, f'{time.monotonic()-began:.0f} s', flush=True)
if status != 0:
    print('\n'.join(f'  {f.file}:{f.line} {f.declaration}: {f.words[:900]}' for f in m.refused_facts(said, crate)) or said[-1500:]); sys.exit(1)
if base:
    shutil.rmtree(warm, ignore_errors=True); subprocess.run(['cp', '-al', inc, warm], check=True)
files = sorted((PINS / 'bench2').glob('*.edit'))
wanted = [f for f in files if not sys.argv[1:] or any(f.stem.startswith(w) for w in sys.argv[1:])]
if sys.argv[1:]: wanted.sort(key=lambda f: min(i for i, w in enumerate(sys.argv[1:]) if f.stem.startswith(w)))
count = {}
for file in wanted:
    edit = m.read_edit('bench', file); began = time.monotonic()
    try:
        m.make_edit(edit, crate)
    except m.Bad as why:
        print(edit.name, 'BAD', why, flush=True); restore(); continue
    shutil.rmtree(inc, ignore_errors=True); subprocess.run(['cp', '-al', warm, inc], check=True)
    status, said = dev()
    (PINS / 'out').mkdir(exist_ok=True); (PINS / 'out' / (edit.name + '.quick')).write_text(said)
    facts = m.refused_facts(said, crate)
    pins = [f for f in facts if f.file.startswith('proofs/Theorems/')]
    bad = [f for f in facts if not f.file.startswith('proofs/')]
    mark = 'BADEDIT' if bad else 'ACCEPTED' if status == 0 else 'PINNED' if pins else 'UNPINNED'
    count[mark] = count.get(mark, 0) + 1
    print(f'{edit.name}: {mark} [{edit.what}] ({time.monotonic() - began:.0f} s)' + (': ' + ', '.join(sorted({f'{f.declaration}' for f in pins})) if pins else ''), flush=True)
    if not pins:
        for f in facts[:6]: print(f'      fact {f.file}:{f.line} {f.declaration}: {f.words[:250]}', flush=True)
        if status and not facts: print('      ' + said[-500:], flush=True)
    restore()
print(count)
