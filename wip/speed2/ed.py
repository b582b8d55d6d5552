import sys
# ed.py VARIANT EDITS..
def sub(v,crate,old,new,n=1):
    p=f'/tmp/sp/{v}/crates/{crate}/src/lib.rt'
    t=open(p).read()
    assert t.count(old)==n,(v,t.count(old),old)
    open(p,'w').write(t.replace(old,new))
NODE="Parsed::Node {\n            root,\n            cursor: after,\n            count: used,\n        }"
def I(v): sub(v,'expressions',"    if from.0 == cursor.0 {\n        return operand;\n    }\n","    if from.0 == cursor.0 {\n        return "+NODE+";\n    }\n")
def J(v): sub(v,'expressions',"    if bare {\n        return operand;\n    }\n","    if bare {\n        return "+NODE+";\n    }\n")
def B(v):
    seg="    let Parsed::Node {\n        root,\n        cursor: after,\n        count: used,\n    } = operand\n    else {\n        return operand;\n    };\n    if from.0 == cursor.0 {\n        return operand;\n    }\n"
    new="    if from.0 == cursor.0 {\n        return operand;\n    }\n    let Parsed::Node {\n        root,\n        cursor: after,\n        count: used,\n    } = operand\n    else {\n        return operand;\n    };\n"
    sub(v,'expressions',seg,new)
def B2(v):
    seg="    let Parsed::Node {\n        root,\n        cursor: after,\n        count: used,\n    } = operand\n    else {\n        return operand;\n    };\n    if bare {\n        return operand;\n    }\n"
    new="    if bare {\n        return operand;\n    }\n    let Parsed::Node {\n        root,\n        cursor: after,\n        count: used,\n    } = operand\n    else {\n        return operand;\n    };\n"
    sub(v,'expressions',seg,new)
def B3(v):
    seg="        let Parsed::Node {\n            root,\n            cursor: after,\n            count: more,\n        } = right\n        else {\n            return right;\n        };\n        if bare {\n            return right;\n        }\n"
    new="        if bare {\n            return right;\n        }\n        let Parsed::Node {\n            root,\n            cursor: after,\n            count: more,\n        } = right\n        else {\n            return right;\n        };\n"
    sub(v,'expressions',seg,new)
def B4(v):
    seg="    if peek(kinds, after) != BaseToken::As {\n        return node;\n    }\n    parse_casts"
    new="    if peek(kinds, after) != BaseToken::As {\n        return Parsed::Node {\n            root,\n            cursor: after,\n            count: used,\n        };\n    }\n    parse_casts"
    sub(v,'casts',seg,new)
for e in sys.argv[2:]: globals()[e](sys.argv[1])
