import subprocess,re,shutil,sys,pathlib,os
base=pathlib.Path(os.environ['TRIALS'])/'ab'[int(sys.argv[1])]
M='specs/Rules/Marks.antt';K='specs/Rules/Keys.antt';B='specs/Rules/Bytes.antt';P='specs/Rules/Plain.antt'
muts=[
('insertion at it moves it 2',M,'cond (leb m from) (At m) (cond (ltb m (from + gone)) Unmarked (cond (eqb m (from + gone)) (At from) (At (m - gone + come))))','cond (ltb m from) (At m) (cond (ltb m (from + gone)) Unmarked (At (m - gone + come)))'),
('mark moved by insertion at it',M,'cond (leb m from) (At m)','cond (ltb m from) (At m)'),
('kept inside a deletion (at its start)',M,'(cond (ltb m (from + gone)) Unmarked','(cond (ltb m (from + gone)) (At from)'),
('right end taken away',M,'cond (ltb m (from + gone)) Unmarked','cond (leb m (from + gone)) Unmarked'),
('right end moved behind what comes',M,'(cond (eqb m (from + gone)) (At from) (At (m - gone + come)))','(At (m - gone + come))'),
('behind: not moved by come',M,'(At (m - gone + come))','(At (m - gone))'),
('behind: not moved by gone',M,'(At (m - gone + come))','(At (m + come))'),
('no mark becomes 0',M,'markThrough from gone come Unmarked = Unmarked','markThrough from gone come Unmarked = At 0'),
('markChanged from cursor',M,'markThrough (length (d .l) - c .before)','markThrough (length (d .l))'),
('markChanged gone only before',M,'(c .before + c .behind)','(c .before)'),
('markChanged gone only behind',M,'(c .before + c .behind)','(c .behind)'),
('markChanged come only left',M,'(length (c .put .l) + length (c .put .r))','(length (c .put .l))'),
('markChanged come only right',M,'(length (c .put .l) + length (c .put .r))','(length (c .put .r))'),
('taking left wrong side',M,'taking Left n = record { before = n; behind = 0; put = empty }','taking Left n = record { before = 0; behind = n; put = empty }'),
('taking right wrong side',M,'taking Right n = record { before = 0; behind = n; put = empty }','taking Right n = record { before = n; behind = 0; put = empty }'),
('wayTo swapped',M,'wayTo m l = cond (leb m l) Left Right','wayTo m l = cond (leb m l) Right Left'),
('farTo swapped',M,'cond (leb m l) (l - m) (m - l)','cond (leb m l) (m - l) (l - m)'),
('farTo only left',M,'cond (leb m l) (l - m) (m - l)','l - m'),
('markWithin strict',M,'markWithin n (At m) = leb m n','markWithin n (At m) = ltb m n'),
('markWithin one more',M,'markWithin n (At m) = leb m n','markWithin n (At m) = leb m (n + 1)'),
('no mark is no session',M,'markWithin n Unmarked = true','markWithin n Unmarked = leb 1 n'),
('MARK sound in QUOTED',K,'soundKey mode Mark = isMain mode','soundKey mode Mark = true'),
('CUT sound in QUOTED',K,'soundKey mode Cut = isMain mode','soundKey mode Cut = true'),
('PASTE sound in QUOTED',K,'soundKey mode Paste = isMain mode','soundKey mode Paste = true'),
('isMain swapped',K,'isMain Main = true\nisMain Quoted = false','isMain Main = false\nisMain Quoted = true'),
('MARK at the end',K,'withMark (At (length (p .main .text .l))) p','withMark (At (length (p .main .text .r))) p'),
('MARK at 0',K,'withMark (At (length (p .main .text .l))) p','withMark (At 0) p'),
('MARK toggles off? rings',K,'markedHere p = reporting quiet','markedHere p = reporting rang'),
('CUT without mark quiet',K,'cutTo Unmarked p = reporting rang p','cutTo Unmarked p = reporting quiet p'),
('CUT without mark empties held',K,'cutTo Unmarked p = reporting rang p','cutTo Unmarked p = reporting rang (withHolding emptySide p)'),
('CUT keeps mark',K,'within (λ s. withMark Unmarked (withHolding s p))','within (λ s. withHolding s p)'),
('CUT sets recall',K,'within (λ s. withMark Unmarked (withHolding s p))','within (λ s. withMark Unmarked (withSide Main s (withHolding s p)))'),
('CUT sets only recall',K,'within (λ s. withMark Unmarked (withHolding s p))','within (λ s. withMark Unmarked (withSide Main s p))'),
('CUT lines 1',K,'(Reached (farTo m l) 0)','(Reached (farTo m l) 1)'),
('CUT counts lines',K,'(carried Delete (wayTo m l) (Reached (farTo m l) 0) (holding p))','(carried Delete (wayTo m l) (Reached (farTo m l) (length (removed (wayTo m l) (farTo m l) (p .main .text) .l) )) (holding p))'),
('CUT moves only',K,'(carried Delete (wayTo m l)','(carried Move (wayTo m l)'),
('withHolding drops recall',K,'main = record { text = s .text; recall = p .main .recall };','main = record { text = s .text; recall = s .recall };'),
('withHolding keeps held',K,'held = s .recall;','held = p .held;'),
('withHolding drops mark',K,'      held = s .recall;\n      mark = p .mark;','      held = s .recall;\n      mark = Unmarked;'),
('PASTE empties held',K,'pasted p = within (λ s. withHolding s p) (recalled (holding p))','pasted p = within (λ s. withHolding (record { text = s .text; recall = emptySide .text }) p) (recalled (holding p))'),
('PASTE inserts recall',K,'(recalled (holding p))','(recalled (p .main))'),
('PASTE drops the mark',K,'pasted p = within (λ s. withHolding s p)','pasted p = within (λ s. withMark Unmarked (withHolding s p))'),
('ofDocument Quoted same',K,'ofDocument Quoted c = unchanged','ofDocument Quoted c = c'),
('ofDocument Main none',K,'ofDocument Main c = c','ofDocument Main c = unchanged'),
('cutting unchanged',K,'cutting (At m) l = taking (wayTo m l) (farTo m l)','cutting (At m) l = unchanged'),
('cutting unmarked takes l',K,'cutting Unmarked l = unchanged','cutting Unmarked l = taking Left l'),
('changeOf Insert in quoted',K,'changeOf (Insert b) p did = ofDocument (p .mode) (putting (record { l = b ∷ []; r = [] }))','changeOf (Insert b) p did = putting (record { l = b ∷ []; r = [] })'),
('changeOf Insert none',K,'changeOf (Insert b) p did = ofDocument (p .mode) (putting (record { l = b ∷ []; r = [] }))','changeOf (Insert b) p did = unchanged'),
('changeOf Delete in quoted',K,'changeOf (Function Delete way place) p did = ofDocument (p .mode) (taking way (did .report .steps))','changeOf (Function Delete way place) p did = taking way (did .report .steps)'),
('changeOf Recall in quoted',K,'changeOf Recall p did = ofDocument (p .mode) (putting (p .main .recall))','changeOf Recall p did = putting (p .main .recall)'),
('changeOf Recall held',K,'changeOf Recall p did = ofDocument (p .mode) (putting (p .main .recall))','changeOf Recall p did = ofDocument (p .mode) (putting (p .held))'),
('changeOf Replace in QUOTED nothing',K,'    cond (did .report .bell) unchanged\n    (record','    ofDocument (p .mode) (cond (did .report .bell) unchanged\n    (record'),
('changeOf Replace ignoring bell',K,'    cond (did .report .bell) unchanged\n    (record','    cond (did .report .bell) (record { before = 0; behind = length (did .state .pattern); put = did .state .replacement })\n    (record'),
('changeOf Replace old replacement',K,'put = did .state .replacement','put = p .replacement'),
('changeOf Replace pattern not gone',K,'behind = length (did .state .pattern); put','behind = 0; put'),
('changeOf Paste nothing',K,'changeOf Paste p did = putting (p .held)','changeOf Paste p did = unchanged'),
('changeOf Paste recall',K,'changeOf Paste p did = putting (p .held)','changeOf Paste p did = putting (p .main .recall)'),
('changeOf Cut nothing',K,'changeOf Cut p did = cutting (p .mark) (length (p .main .text .l))','changeOf Cut p did = unchanged'),
('changeOf Move takes',K,'changeOf (Function Move way place) p did = unchanged','changeOf (Function Move way place) p did = taking way (did .report .steps)'),
('changeOf Find takes',K,'changeOf (Find way) p did = unchanged','changeOf (Find way) p did = taking way (did .report .steps)'),
('followed: mark of p',K,'(p .main .text) (did .state .mark))) did','(p .main .text) (p .mark))) did'),
('followed: text behind',K,'(changeOf k p did) (p .main .text) (did','(changeOf k p did) (did .state .main .text) (did'),
('followed: not at all',K,'pressed k p = followed k p (acted k p)','pressed k p = acted k p'),
('quoted drops mark',K,'      mode = otherMode (p .mode);\n      held = p .held;\n      mark = p .mark;','      mode = otherMode (p .mode);\n      held = p .held;\n      mark = Unmarked;'),
('quoted drops held',K,'      mode = otherMode (p .mode);\n      held = p .held;','      mode = otherMode (p .mode);\n      held = emptySide .text;'),
('withPattern drops mark',K,'      replacement = p .replacement;\n      mode = Main;\n      held = p .held;\n      mark = p .mark;','      replacement = p .replacement;\n      mode = Main;\n      held = p .held;\n      mark = Unmarked;'),
('withPattern drops held',K,'      replacement = p .replacement;\n      mode = Main;\n      held = p .held;','      replacement = p .replacement;\n      mode = Main;\n      held = emptySide .text;'),
('withReplacement drops mark',K,'      replacement = p .quoted .text;\n      mode = Main;\n      held = p .held;\n      mark = p .mark;','      replacement = p .quoted .text;\n      mode = Main;\n      held = p .held;\n      mark = Unmarked;'),
('withReplacement drops held',K,'      replacement = p .quoted .text;\n      mode = Main;\n      held = p .held;','      replacement = p .quoted .text;\n      mode = Main;\n      held = emptySide .text;'),
('sized without held',B,' && eqb (length (b .held)) (length (b .text)))',')'),
('sized held at least',B,'eqb (length (b .held)) (length (b .text))','leb (length (b .text)) (length (b .held))'),
('plainOf held from recall',B,'held = unpair (n .hl) (n .hr) (b .held);','held = unpair (n .hl) (n .hr) (b .recall);'),
('plainOf held halves',B,'held = unpair (n .hl) (n .hr) (b .held);','held = unpair (n .hr) (n .hl) (b .held);'),
('plainOf mark none',B,'      held = unpair (n .hl) (n .hr) (b .held);\n      mark = n .mark;','      held = unpair (n .hl) (n .hr) (b .held);\n      mark = Unmarked;'),
('lengthsOf halves',B,'      hl = length (p .held .l);\n      hr = length (p .held .r);','      hl = length (p .held .r);\n      hr = length (p .held .l);'),
('lengthsOf mark',B,'      hr = length (p .held .r);\n      mark = p .mark;','      hr = length (p .held .r);\n      mark = Unmarked;'),
('storesOf held gapped',B,'held = paired T (p .held);','held = gapped T (p .held);'),
('editorOk no mark test',B,'(soundPair (n .hl) (n .hr) (b .held) && markWithin (n .main .l + n .main .r) (n .mark))','soundPair (n .hl) (n .hr) (b .held)'),
('editorOk mark in l',B,'markWithin (n .main .l + n .main .r) (n .mark)','markWithin (n .main .l) (n .mark)'),
('editorOk mark in T',B,'markWithin (n .main .l + n .main .r) (n .mark)','markWithin (length (b .text)) (n .mark)'),
('editorOk mark with quotation',B,'markWithin (n .main .l + n .main .r) (n .mark)','markWithin (n .main .l + n .main .r + n .quoted .l) (n .mark)'),
('editorOk held not sound',B,'(soundPair (n .hl) (n .hr) (b .held) && markWithin','(leb (n .hl + n .hr) (length (b .held)) && markWithin'),
('editorOk held halves',B,'(oneHalf (holdingSizes n) && unquoted','(true && unquoted'),
('opening marked at 0',P,'mark = Unmarked;','mark = At 0;'),
('opening held',P,'held = empty;','held = record { l = text; r = [] };'),
('openingLengths mark',B,'mark = Unmarked;','mark = At 0;'),
('insertion at it moves it 2',M,'cond (leb m from) (At m) (cond (ltb m (from + gone)) Unmarked (cond (eqb m (from + gone)) (At from) (At (m - gone + come))))','cond (ltb m from) (At m) (cond (ltb m (from + gone)) Unmarked (At (m - gone + come)))'),
('no mark is no session',M,'markWithin n Unmarked = true','markWithin n Unmarked = leb 1 n'),
('right half moves the mark at it',M,'markThrough (length (d .l) - c .before)','markThrough (cond (leb 1 (length (c .put .r))) (length (d .l) - c .before - 1) (length (d .l) - c .before))'),
('left half moves the mark at it',M,'markThrough (length (d .l) - c .before)','markThrough (cond (leb 1 (length (c .put .l))) (length (d .l) - c .before - 1) (length (d .l) - c .before))'),
('putting as taking nothing',M,'putting x = record { before = 0; behind = 0; put = x }','putting x = record { before = 0; behind = 0; put = empty }'),
('opening marked at 0',P,'mark = Unmarked;','mark = Rattle·editor·specs.specs.declared.Marking.the-variants.At 0;'),
('openingLengths mark',B,'mark = Unmarked;','mark = Rattle·editor·specs.specs.declared.Marking.the-variants.At 0;'),
('openingLengths held',B,'      hl = 0;\n','      hl = n;\n'),
('CUT pair on the wrong side',K,'(withHolding s p)) (carried Delete','(withHolding (record { text = s .text; recall = record { l = s .recall .r; r = s .recall .l } }) p)) (carried Delete'),
('CUT at the cursor rings',K,'    within (λ s. withMark Unmarked (withHolding s p)) (carried Delete','    within (λ s. withMark Unmarked (withHolding s p)) (carried Delete'),
('PASTE reports steps',K,'pasted p = within (λ s. withHolding s p) (recalled (holding p))','pasted p = reporting (went (length (p .held .l)) 0) (withHolding (recalled (holding p) .state) p)'),
('PASTE swaps halves',K,'(recalled (holding p))','(recalled (record { text = p .main .text; recall = record { l = p .held .r; r = p .held .l } }))'),
('PASTE all to the left',K,'pasted p = within (λ s. withHolding s p) (recalled (holding p))','pasted p = reporting quiet (withHolding (record { text = splice 0 0 (record { l = content (p .held); r = [] }) (p .main .text); recall = p .held }) p)'),
('MARK keeps an older mark',K,'markedHere p = reporting quiet (withMark (At (length (p .main .text .l))) p)','markedHere p = reporting quiet (elim (p .mark) [ Unmarked ↦ withMark (At (length (p .main .text .l))) p | At m ↦ p ])'),
('withMark drops held',K,'      held = p .held;\n      mark = mark;','      held = emptySide .text;\n      mark = mark;'),
('withMark drops recall',K,'withMark mark p =\n    record {\n      main = p .main;','withMark mark p =\n    record {\n      main = record { text = p .main .text; recall = emptySide .text };'),
('withSide Main drops held',K,'      main = s;\n      quoted = p .quoted;\n      pattern = p .pattern;\n      replacement = p .replacement;\n      mode = p .mode;\n      held = p .held;','      main = s;\n      quoted = p .quoted;\n      pattern = p .pattern;\n      replacement = p .replacement;\n      mode = p .mode;\n      held = emptySide .text;'),
('withSide Main held as recall',K,'      main = s;\n      quoted = p .quoted;\n      pattern = p .pattern;\n      replacement = p .replacement;\n      mode = p .mode;\n      held = p .held;','      main = s;\n      quoted = p .quoted;\n      pattern = p .pattern;\n      replacement = p .replacement;\n      mode = p .mode;\n      held = s .recall;'),
('withSide Quoted drops held',K,'      quoted = s;\n      pattern = p .pattern;\n      replacement = p .replacement;\n      mode = p .mode;\n      held = p .held;','      quoted = s;\n      pattern = p .pattern;\n      replacement = p .replacement;\n      mode = p .mode;\n      held = emptySide .text;'),
('withSide Quoted drops mark',K,'      quoted = s;\n      pattern = p .pattern;\n      replacement = p .replacement;\n      mode = p .mode;\n      held = p .held;\n      mark = p .mark;','      quoted = s;\n      pattern = p .pattern;\n      replacement = p .replacement;\n      mode = p .mode;\n      held = p .held;\n      mark = Unmarked;'),
('withHolding drops pattern',K,'main = record { text = s .text; recall = p .main .recall };\n      quoted = p .quoted;\n      pattern = p .pattern;','main = record { text = s .text; recall = p .main .recall };\n      quoted = p .quoted;\n      pattern = [];'),
('withHolding drops replacement',K,'main = record { text = s .text; recall = p .main .recall };\n      quoted = p .quoted;\n      pattern = p .pattern;\n      replacement = p .replacement;','main = record { text = s .text; recall = p .main .recall };\n      quoted = p .quoted;\n      pattern = p .pattern;\n      replacement = emptySide .text;'),
('changeOf Delete by one',K,'(taking way (did .report .steps))','(taking way 1)'),
('changeOf Delete always left',K,'(taking way (did .report .steps))','(taking Left (did .report .steps))'),
('changeOf Mark puts',K,'changeOf Mark p did = unchanged','changeOf Mark p did = putting (p .held)'),
('changeOf Quote puts',K,'changeOf Quote p did = unchanged','changeOf Quote p did = putting (p .main .recall)'),
('changeOf Mark takes',K,'changeOf Mark p did = unchanged','changeOf Mark p did = cutting (p .mark) (length (p .main .text .l))'),
('acted Cut unmarked only',K,'acted Cut p = cut p','acted Cut p = cutTo Unmarked p'),
('acted Paste recalls',K,'acted Paste p = pasted p','acted Paste p = onSide recalled p'),
('key: KEY after FULL',K,'key T Q k p = unless (check KEY (soundKey (p .mode) k) ∷ []) refused (bounded T Q (pressed k p))','key T Q k p = unless (check FULL (fits T Q (pressed k p .state)) ∷ check KEY (soundKey (p .mode) k) ∷ []) refused (bounded T Q (pressed k p))'),
('sound Mark only with quotation',K,'soundKey mode Mark = isMain mode','soundKey mode Mark = false'),
('editorOk held by recall lengths',B,'oneHalf (holdingSizes n)','oneHalf (n .main)'),
('holdingSizes swapped',B,'rl = n .hl; rr = n .hr }','rl = n .hl; rr = n .hl }'),
('held gap store',B,'soundPair (n .hl) (n .hr) (b .held)','soundGap (n .hl) (n .hr) (b .held)'),
('plainOf held ungap',B,'held = unpair (n .hl) (n .hr) (b .held);','held = ungap (n .hl) (n .hr) (b .held);'),
('sized held 4Q',B,'eqb (length (b .held)) (length (b .text))','eqb (length (b .held)) (4 * Q)'),
('sized held at most',B,'eqb (length (b .held)) (length (b .text))','leb (length (b .held)) (length (b .text))'),
('CUT at the cursor rings', 'specs/Rules/Keys.antt', '    within (λ s. withMark Unmarked (withHolding s p)) (carried Delete (wayTo m l) (Reached (farTo m l) 0) (holding p))', '    cond (leb m l && leb l m) (reporting rang (withMark Unmarked p)) (within (λ s. withMark Unmarked (withHolding s p)) (carried Delete (wayTo m l) (Reached (farTo m l) 0) (holding p)))'),
('CUT at the cursor keeps held', 'specs/Rules/Keys.antt', '    within (λ s. withMark Unmarked (withHolding s p)) (carried Delete (wayTo m l) (Reached (farTo m l) 0) (holding p))', '    cond (leb m l && leb l m) (reporting quiet (withMark Unmarked p)) (within (λ s. withMark Unmarked (withHolding s p)) (carried Delete (wayTo m l) (Reached (farTo m l) 0) (holding p)))'),
('CUT at the cursor keeps the mark', 'specs/Rules/Keys.antt', '    within (λ s. withMark Unmarked (withHolding s p)) (carried Delete (wayTo m l) (Reached (farTo m l) 0) (holding p))', '    cond (leb m l && leb l m) (reporting quiet (withHolding (record { text = p .main .text; recall = emptySide .text }) p)) (within (λ s. withMark Unmarked (withHolding s p)) (carried Delete (wayTo m l) (Reached (farTo m l) 0) (holding p)))'),
('changeOf Mark puts',K,'changeOf Mark p did = unchanged','changeOf Mark p did = putting (p .held)'),
('changeOf Quote puts',K,'changeOf Quote p did = unchanged','changeOf Quote p did = putting (p .main .recall)'),
('changeOf Mark takes',K,'changeOf Mark p did = unchanged','changeOf Mark p did = cutting (p .mark) (length (p .main .text .l))'),
]

res=[]
seen=set()
work=[]
for m in muts:
    if m[2]==m[3] or m in seen or (m[0] in('opening marked at 0','openingLengths mark') and m[3]=='mark = At 0;'): continue
    seen.add(m); work.append(m)
K0=int(sys.argv[1]); print(len(work),'in all')
only=[]
for name,f,old,new in work[K0::2]:
    if only and not any(o in name for o in only): continue
    path=base/'crates/editor'/f
    orig=pathlib.Path(os.environ['FROM'],f).read_text()
    if orig.count(old)!=1:
        print('BAD',orig.count(old),name,flush=True);continue
    t=orig.replace(old,new)
    if name=='changeOf Replace in QUOTED nothing':
        t=t.replace('put = did .state .replacement })','put = did .state .replacement }))')
    if 'ltb' in new and f==M: pass
    path.write_text(t)
    r=subprocess.run(['nice','-n','5','rt','dev','editor'],cwd=base,stdout=subprocess.PIPE,stderr=subprocess.STDOUT,text=True)
    errs=[]
    for l in r.stdout.split('\n'):
        m=re.match(r'(\S+?): error: `([^`]+)`: (.*)',l)
        if m and 'not admitted' not in m.group(3)[:300]:
            errs.append(pathlib.Path(m.group(1).split(':')[0]).name+':'+m.group(2))
        elif re.match(r'(\S+?): error',l) : 
            errs.append('OTHER '+l[:200])
    print(('ACCEPTED ' if r.returncode==0 else 'refused  ')+name+'  '+', '.join(errs),flush=True)
    path.write_text(orig)
