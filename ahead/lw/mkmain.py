# the forthwn crate's source with a main that calls each entry, so that none is dropped
import re,sys
src=open(sys.argv[1],encoding='utf8').read()
# rename to t_*
src=src.replace('fn forthwn_','fn t_')
main='''
fn main() {
    let b = [0u8; 4];
    let string = [0u16; 1];
    let mut o8 = [0u8; 4];
    let mut o16 = [0u16; 4];
    let mut o16b = [0u16; 4];
    let mut i32a = [0i32; 4];
    let mut i32b = [0i32; 4];
    let mut o32 = [0u32; 4];
    let mut head = [0u32; 4];
    let mut n3 = [0i64; 3];
    let mut c64 = [0i64; 4];
    let mut len = 0u32;
    let mut said = 0u32;
    let r1 = t_refusal(&b);
    let r2 = t_read(&b, &mut o16, &mut i32a, &mut o16b, &mut i32b, &mut head);
    let r3 = t_write(1, 0, 0, 0, &o16, &i32a, &o16b, &i32b, &mut o8, &mut len);
    let r4 = t_compose(&b, &b, &mut o8, &mut o16, &mut o32, &mut len);
    let r5 = t_apply(&string, &b, &mut o8, &mut o16, &mut o32, &mut len);
    let r6 = t_trim(&b, &mut o8, &mut o16, &mut len);
    let r7 = t_count(&b, &mut len);
    let r8 = t_nth(&b, 0, &mut o16, &mut o16b, &mut n3);
    let r9 = t_shortest(&b, &mut o16, &mut o16b, &mut n3);
    DIST
    let r11 = t_readings(&b, &b, &string, &mut len);
    let r12 = t_list(&b, &b, &b, &mut o8, &mut len, &mut said);
    if r1 != r2 {
        len = 1;
    }
    if r3 != r4 {
        len = 1;
    }
    if r5 != r6 {
        len = 1;
    }
    if r7 != r8 {
        len = 1;
    }
    if r9 != r11 {
        len = 1;
    }
    if r12 != len {
        said = 1;
    }
}
'''
if 'fn t_distance' in src:
    main=main.replace('DIST','let r10 = t_distance(&b, &mut c64);\n    if r10 != r9 {\n        len = 1;\n    }')
else:
    main=main.replace('DIST','')
open(sys.argv[2],'w',encoding='utf8').write(src+main)
