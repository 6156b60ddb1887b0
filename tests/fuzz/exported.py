#!/usr/bin/env python3
"""What `rt try` leaves out of a library for C, for run.sh with UNPROVED=1.

exported.py test     prints a test of omf_c that has the calls of the fuzzers that its own tests do not have: only what is called is compiled
exported.py names    reads the program of the tests as LLVM's text, and prints it with the calls by their names in C, and without its main"""
import re
import sys

TEST = """
#[test]
fn the_other_calls(rt: HostRuntime) {
    let mut out = [0u8; 4];
    let image = crate::omf_image(rt.alloc(), b"x", b"y", true, &mut [], &mut out);
    let start = crate::omf_start(rt.alloc(), b"x", b"y", true, &mut []);
    let members = crate::omf_library_members(rt.alloc(), b"x", true, &mut []);
    let found = crate::omf_library_find(b"x", b"y");
    assert!(rt; image.status == 4 && start.status == 4, "no module");
    assert!(rt; members.status == 9 && found.status == 9, "no library");
}
"""
# A call that returns a struct omf_answer, of 56 bytes, through a pointer. As C has it, the pointer is returned too: sret.
CALL = re.compile(r'define internal void @"(omf_c::\w+::(omf_\w+))"\(ptr noundef %a0')


def named(text):
    names = CALL.findall(text)
    text = CALL.sub(r"define void @\2(ptr noundef sret([56 x i8]) %a0", text)
    for long, short in names:
        text = text.replace(f'@"{long}"', f"@{short}")
    return text.replace("define i32 @main()", "define internal i32 @main()")


if __name__ == "__main__":
    if sys.argv[1:] == ["test"]:
        sys.stdout.write(TEST)
    elif sys.argv[1:] == ["names"]:
        sys.stdout.write(named(sys.stdin.read()))
    else:
        sys.exit(__doc__)
