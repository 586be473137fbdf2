#!/usr/bin/env python3
"""Cuts random texts by a reading of the lexer's rules of its own, in regular expressions.

cut_texts.py SEED COUNT prints rows for the tables of crates/py_lexer/src/tests.rt: a text, and its tokens by line or the
place of its first fault. Put them into a test like those that stand there, in a copy of the repository, and run
`rt try --test`. It shares no code with the lexer.
"""
import re, random, unicodedata, keyword, sys
SUB="and as assert async await break class continue def elif else False for from if import in is None not or pass raise return True while with".split()
OTHER="del except finally global lambda nonlocal try yield".split()
assert sorted(SUB+OTHER)==sorted(keyword.kwlist)
SIGNS=sorted("( ) [ ] { } , : . = == != < <= > >= + - * / // % ** & | ^ ~ << >> += -= *= //= %= &= |= ^= <<= >>= ->".split(),key=lambda s:-len(s))
name=re.compile(r'[^\W\d]\w*')
num=re.compile(r'0x[0-9a-fA-F]+(?:_[0-9a-fA-F]+)*|0o[0-7]+(?:_[0-7]+)*|0b[01]+(?:_[01]+)*|[1-9][0-9]*(?:_[0-9]+)*|0')
dec=re.compile(r'([0-9]+)(?:\.([0-9]+)(?:[eE]([+-]?[0-9]+))?|[eE]([+-]?[0-9]+))')
class Fault(Exception): pass
def string(t,i,holes,starti):
    q=t[i]; tr=t.startswith(q*3,i); cl=q*3 if tr else q
    j=i+len(cl)
    while True:
        if t.startswith(cl,j): return j+len(cl)
        if j>=len(t):
            if tr: return None
            raise Fault(starti)
        c=t[j]
        if c=='\\':
            m=re.compile(r"\\(?:[\\'\"nt]|\r?\n)").match(t,j)
            if not m: raise Fault(j)
            j=m.end(); continue
        if not tr and (c=='\n' or t.startswith('\r\n',j)): raise Fault(starti)
        if holes and c=='{':
            if t.startswith('{{',j): j+=2; continue
            m=name.match(t,j+1)
            if not m or not t.startswith('}',m.end()) or m.group() in SUB+OTHER or unicodedata.normalize('NFKC',m.group())!=m.group(): raise Fault(j)
            j=m.end()+1; continue
        if holes and c=='}':
            if t.startswith('}}',j): j+=2; continue
            raise Fault(j)
        j+=1
def lex(t):
    out=[];toks=[];indent=0;fresh=True;st=[];i=0
    def flush():
        nonlocal toks,indent,fresh
        if toks: out.append((indent,toks))
        toks=[];indent=0;fresh=True
    while i<len(t):
        c=t[i]
        if c==' ':
            if fresh: indent+=1
            i+=1; continue
        if c=='\t':
            if fresh: raise Fault(i)
            i+=1; continue
        if c=='#':
            m=re.compile(r'#.*?(?=\r?\n|\Z)',re.S).match(t,i); i=m.end(); continue
        m=re.compile(r'\r?\n').match(t,i)
        if m:
            if not st: flush()
            i=m.end(); continue
        if c=='\\':
            m=re.compile(r'\\\r?\n').match(t,i)
            if not m or m.end()==len(t): raise Fault(i)
            fresh=False; i=m.end(); continue
        def add(k,j):
            nonlocal i,fresh
            toks.append((k,t[i:j])); i=j; fresh=False
        if c in '\'"' or (c=='f' and t[i+1:i+2] in ('"',"'") and t[i+1:i+2]):
            h=c=='f'
            j=string(t,i+h,h,i)
            if j is None: raise Fault(st[0][1] if st else i)
            add('f' if h else 't',j); continue
        m=name.match(t,i)
        if m:
            w=m.group()
            if unicodedata.normalize('NFKC',w)!=w or w in OTHER: raise Fault(i)
            add('k' if w in SUB else 'n',m.end()); continue
        m=dec.match(t,i)
        if m:
            e=m.group(3) or m.group(4)
            if len(m.group(1))+len(m.group(2) or '')>18 or (e and abs(int(e))>18): raise Fault(i)
            add('d',m.end()); continue
        m=num.match(t,i)
        if m:
            if int(m.group().replace('_',''),0)>=2**128: raise Fault(i)
            add('#',m.end()); continue
        for s in SIGNS:
            if t.startswith(s,i):
                if s in '([{' : st.append((s,i))
                elif s in ')]}':
                    if not st or '([{'.index(st[-1][0])!=')]}'.index(s): raise Fault(i)
                    st.pop()
                add('s',i+len(s)); break
        else: raise Fault(i)
    if st: raise Fault(st[0][1])
    flush()
    return out
def shown(t):
    try: ls=lex(t)
    except Fault as f:
        i=f.args[0]; return "%d:%d"%(t.count('\n',0,i)+1, i-(t.rfind('\n',0,i)+1)+1)
    return ''.join(str(n)+''.join(' '+k+w for k,w in ts)+';' for n,ts in ls)
def rs(s):
    o=''
    for ch in s:
        if ch in '\\"': o+='\\'+ch
        elif ch=='\n': o+='\\n'
        elif ch=='\r': o+='\\r'
        elif ch=='\t': o+='\\t'
        elif ord(ch)<32 or ord(ch)>126: o+='\\u{%x}'%ord(ch)
        else: o+=ch
    return '"'+o+'"'
ATOMS=["a","f","x1","é","_","if","lambda","\ufb01","0","00","1","12","1_0","0x1F","0b2","1.5","1e5","1.e5","e","E-3",".","123456789012345678.5","9"*39,"'","\"","'''","\"\"\"","f'","f\"\"\"","{","}","{{","}}","{a}","(",")","[","]","\\","\\n","\\q","\\'","\n","\r\n","\r","\\\n"," ","  ","\t","#c","=","==","//=","<<","<",">>=","->","-","!","!=","$","@",",",":","*","**","\x0c","~","٣"]
if __name__=='__main__':
    random.seed(int(sys.argv[1])); n=int(sys.argv[2]); rows=[]
    import collections; kinds=collections.Counter()
    while len(rows)<n:
        t=''.join(random.choice(ATOMS) for _ in range(random.randint(3,40)))
        r=shown(t)
        k='fault' if re.fullmatch(r'\d+:\d+',r) else 'ok'
        if k=='fault' and kinds['fault']>kinds['ok']*1.2+20: continue
        kinds[k]+=1
        rows.append('        (%s, %s),'%(rs(t),rs(r)))
    print('\n'.join(rows))
    print(kinds,file=sys.stderr)
