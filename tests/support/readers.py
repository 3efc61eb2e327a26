"""Calls that read a form at its pointer, one after the other, and what a page says of each, by docs/language.md."""

_END = ", which is scanned next, since #( began an active function"
READERS = (
    ("#(ds,F,AxB)", "ds defines a form: a text under a name; its value is empty"),
    ("#(ss,F,x)", "which leave numbered gaps; its value is empty"),
    ("##(cs,F,none)", "cs reads a form up to the next gap; its value is A, which is not scanned"),
    ("##(cs,F,none)", "cs reads a form up to the next gap; its value is B, which is not scanned"),
    ("##(cs,F,none)",
     "performed: the pointer of F stands at its end: no segment is left, so its value is argument 2, the default: "
     "none, which is scanned next: it is the default, although ##("),
    ("#(CS,F)",
     "the pointer of F stands at its end: no segment is left, so its value is argument 2, the default, "
     "which is missing: empty"),
    ("#(cc,F,Z)", "performed: the pointer of F stands at its end, so its value is argument 2, the default: Z" + _END),
    ("#(cn,F,a+1,Z)",
     "performed: the pointer of F stands at its end, so its value is argument 3, the default: Z" + _END),
    ("#(cn,F,0,Z)", "cn reads so many bytes of a form; its value is empty"),
    ("#(in,F,A,Z)",
     "performed: A is not found after the pointer of F, which stands at its end, so its value is argument 3, "
     "the default: Z" + _END),
    ("#(in,F,,Z)", "in reads a form up to a text; its value is empty"),
    ("#(cn,F,-1,B)", "cn reads so many bytes of a form; its value is B" + _END),
    ("#(cr,F)", "a form's pointer goes before its first item; its value is empty"),
    ("#(cn,F,-2,Z)",
     "performed: the pointer of F stands at its start, so its value is argument 3, the default: Z" + _END),
    ("#(in,F,(b,c),)",
     "performed: “b,c” is not found after the pointer of F, so its value is argument 3, the default: empty"),
    ("#(cc,F,A)", "cc reads the next byte of a form; its value is A" + _END),
    ("#(ds,(G,),ab)", "ds defines a form"),
    ("#(ss,(G,),b)", "which leave numbered gaps"),
    ("#(cn,(G,),-1,Z)",
     "performed: the pointer of “G,” stands at its start, so its value is argument 3, the default: Z" + _END),
    ("#(cc,(G,))", "cc reads the next byte of a form; its value is a" + _END),
    ("#(cc,(G,),Z)",
     "performed: only gaps stand after the pointer of “G,”, so its value is argument 2, the default: Z" + _END),
    ("#(cs,(G,),Z)", "cs reads a form up to the next gap; its value is empty"),
    ("#(cc,none,Z)", "cc reads the next byte of a form; its value is empty"),
    ("#(ds,H,x)", "ds defines a form"),
    ("#(ss,H,x)", "which leave numbered gaps"),
    ("#(cs,H)", "cs reads a form up to the next gap; its value is empty"),
    ("#(cn,H,-1,Z)",
     "performed: only gaps stand before the pointer of H, so its value is argument 3, the default: Z" + _END),
)
# The program that has these calls alone.
PROGRAM = "".join(call for call, _ in READERS) + "'"
