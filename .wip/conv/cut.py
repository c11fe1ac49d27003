import re,sys,glob,os,shutil
# cut.py CRATE_DIR: leaves types, specs and lemma files of a crate, no functions (for scratch clones alone)
d=sys.argv[1]
for p in glob.glob(d+'/src/**/*.rt',recursive=True):
    t=open(p).read()
    t=re.sub(r"(?:^//[^\n]*\n|^#\[[^\n]*\n)*^(?:pub(?:\([a-z]+\))? )?(?:extern \"C\" )?fn [\s\S]*?^}\n",'',t,flags=re.M)
    t=re.sub(r"^impl [\s\S]*?^}\n",'',t,flags=re.M)
    open(p,'w').write(t)
for q in glob.glob(d+'/proofs/**/Proof.antt',recursive=True)+glob.glob(d+'/proofs/**/Answers.antt',recursive=True):
    f=os.path.dirname(q)
    if os.path.abspath(f)!=os.path.abspath(d+'/proofs'): shutil.rmtree(f,ignore_errors=True)
