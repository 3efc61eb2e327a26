"""Programs that pages are tried with: one whose bytes and name are hostile, one of many kinds, one without end, and one
that asks."""

# What looks like markup, like script, like the end of either, like signs of the debugger; and bytes that are no text.
HOSTILE = (
    b"#(cm,~)'#(ds,</script><script>window.hostile=1</script>,(<img src=x onerror=\"window.hostile=1\"> & &lt; "
    b"<!-- ]]> \" ' ` ${window.hostile=1} \\x3c \\u003c [<1>] <^> \xe2\x80\xa8 \xe2\x80\xa9 \xc3\xa9 "
    b"\xff\xfe\xc0\x80 %s))~"
    b"#(ss,</script><script>window.hostile=1</script>,img,\xff)~"
    b"#(ps,##(cl,</script><script>window.hostile=1</script>,<svg onload=window.hostile=1>))~#(pf,</script><script>"
    b"window.hostile=1</script>)~##(<script>,alert(1),javascript:alert(1))~"
    % bytes(b for b in range(256) if b != ord("~"))
)
HOSTILE_NAME = b"<b>\"&' \xff \xe2\x80\xa8.trac"
# Blocks, a trace, pointers, defaults, and text outside calls.
VARIOUS = (
    b"#(ds,F,a-b-c)#(ss,F,-)#(ds,<1>,x<1>y<^>)'#(tn)#(cs,F,)#(cc,F)#(sb,B,F,<1>)#(fb,B)#(cn,F,-1,Z)#(eb,B)'#(tf)"
    b"a)b,c(d)#e##f##(ad,1,2)##(in,F,zz,(#(ps,Z)))'#(no,such)#(dd,F)#(da)#(rc)x#(hl)'"
)
ENDLESS = b"#(ds,L,(#(ps,x)#(ds,n,#(ad,##(cl,n),1))#(cl,L)))'#(cl,L)'"
ASKING = b"#(ps,(Who? ))#(ps,Hello ##(rs)!)'"
