#!/usr/bin/env python3
"""Counts the places of docs/DESIGN-PASS.md in the .rt files of crates/*/src, by text; with -v it names them. Usage: python3 tools/places.py TREE [-v]"""
import re, sys, glob, os, collections
top = sys.argv[1]; verbose = '-v' in sys.argv
files = sorted(glob.glob(os.path.join(top, 'crates/*/src/**/*.rt'), recursive=True))
out = collections.OrderedDict()
def add(point, where): out.setdefault(point, []).append(where)
for key in ['1 enums with a case Refused(Refusal)','1 enums that hold a value or none','1 a flag beside a value','1 comments that promise a sentinel','1 constants of codes and kinds','1 modes as numbers','2 functions of one name and shape in two crates','3 while loops','4 casts and copies in a function of their own','4 min, max, equality by hand','4 matches that only hand a refusal on','5 functions of seven parameters or more','5 a requires that three functions or more repeat','6 a buffer with a count beside it','7 enums or numbers that say which step','8 answers in proofs']:
    out[key] = []
fnre = re.compile(r'^(?:#\[[^\n]*\]\n)*(?:pub(?:\(crate\))? )?(?:extern "C" )?fn (\w+)(?:<[^>]*>)?\((.*?)\)(?: -> ([^\n]*?))?\n?((?:    (?:requires|ensures)[^\n]*\n|        [^\n]*\n)*)\{\n(.*?)^\}', re.S|re.M)
reqs = collections.defaultdict(list); bodies = collections.defaultdict(list)
for f in files:
    s = open(f).read(); rel = os.path.relpath(f, top)
    for m in re.finditer(r'enum (\w+) \{([^}]*)\}', s, re.S):
        if re.search(r'^    Refused\(Refusal\)', m.group(2), re.M): add('1 enums with a case Refused(Refusal)', f'{rel}: {m.group(1)}')
        elif re.fullmatch(r'\s*(?://[^\n]*\n\s*)*(\w+\([^)]*\),\s*\w+,|\w+,\s*\w+\([^)]*\),)\s*', m.group(2)): add('1 enums that hold a value or none', f'{rel}: {m.group(1)}')
    for m in re.finditer(r'struct (\w+)(?:<[^>]*>)? \{(.*?)^\s*\}', s, re.S|re.M):
        if re.search(r': bool,', m.group(2)) and m.group(1) not in ('Operand',): add('1 a flag beside a value', f'{rel}: {m.group(1)}')
        if re.search(r'\[\w+; \w+\],', m.group(2)) and re.search(r'(lent|size|count|depth|known|length): usize', m.group(2)): add('6 a buffer with a count beside it', f'{rel}: {m.group(1)}')
        if re.search(r'\bmode: u8', m.group(2)): add('1 modes as numbers', f'{rel}: {m.group(1)}')
    for m in re.finditer(r'^const (\w*(CODE|KIND)\w*)|^pub(?:\(crate\))? const (\w*(CODE|KIND)\w*)', s, re.M):
        add('1 constants of codes and kinds', f'{rel}: {m.group(1) or m.group(3)}')
    for m in re.finditer(r'^// [^\n]*((?:; |, or |and )(?:0|16|none|no bytes|the text\'s length|the empty part|first|-1) (?:where|for|if|past)|0 where there is none|0 where (?:they|it|its|no)|`none` for any)', s, re.M):
        add('1 comments that promise a sentinel', f'{rel}: {m.group(0)[3:110]}')
    for m in re.finditer(r'^\s*while ', s, re.M):
        add('3 while loops', f'{rel}:{s.count(chr(10),0,m.start())+1}')
    for m in re.finditer(r'(\w+)::Refused\((\w+)\) => (\w+)::Refused\(\2\),|Err\((\w+)\) => (?:return )?Err\(\4\),', s):
        add('4 matches that only hand a refusal on', f'{rel}:{s.count(chr(10),0,m.start())+1}')
    for m in re.finditer(r'^enum (Kind|Run|Mode)|cursor\.mode [=!<]', s, re.M):
        add('7 enums or numbers that say which step', f'{rel}: {m.group(0)}')
    for m in fnre.finditer(s):
        name, params, res, clauses, body = m.groups()
        n = len([p for p in re.split(r',(?![^<\[(]*[>\])])', params) if p.strip()])
        if n >= 7: add('5 functions of seven parameters or more', f'{rel}: {name} ({n})')
        for q in re.findall(r'requires (?:\w+ )?\{ (.*?) \}\n', clauses or ''): 
            for part in re.split(r' × ', q): reqs[part.strip('() ')].append(f'{rel}: {name}')
        b = re.sub(r'\s+', ' ', body.strip())
        b = re.sub(r'^// [^\n]*', '', b)
        if not rel.startswith('crates/exports_') or True:
            bodies[(b)].append(f'{rel}: {name}')
        if re.fullmatch(r'\(?\w+(\[\w+\])? as \w+\)?( as \w+)?', b) or re.fullmatch(r'\(\w+ [%/] \w+\) as \w+', b): add('4 casts and copies in a function of their own', f'{rel}: {name}')
        if re.fullmatch(r'if (\w+) (<|<=) (\w+) \{ (\1|\3) \} else \{ (\1|\3) \}', b): add('4 min, max, equality by hand', f'{rel}: {name}')
for q, w in reqs.items():
    if len(set(w)) >= 3: add('5 a requires that three functions or more repeat', f'{q} ({len(set(w))}): {"; ".join(sorted(set(w)))}')
for b, w in bodies.items():
    if len(w) > 1 and len(b) > 12: add('2 functions of one name and shape in two crates', f'{b[:70]}: {"; ".join(w)}')
n = 0
for f in glob.glob(os.path.join(top, 'crates/*/proofs/**/Answers.antt'), recursive=True):
    n += len(re.findall(r'^(?:pub )?[\w-]+ : goal\.', open(f).read(), re.M))
for k, w in out.items():
    print(f'{k}: {n if k.startswith("8") else len(w)}')
    if verbose:
        for x in w: print('    ' + x)
