import sys,re
for p in sys.argv[1:]:
    s=open(p).read()
    s=s.replace("(length node-kinds ≡ length node-kinds₀) × (length node-loads ≡ length node-loads₀) ×","(length node-words ≡ length node-words₀) ×")
    s=re.sub(r"node-kinds₀\s+node-loads₀","node-words₀",s)
    s=re.sub(r"node-kinds\s+node-loads","node-words",s)
    open(p,'w').write(s)
