"""Makes the entry function of the program, which begins with a test of the processor."""
import re

CPU = "x86-64"
# the feature bits that must be set, by the number of their word in the C library's cpuid table
FEATURES = {0: 9970177, 2: 1}
# the message of a program that starts on a processor without a required feature
LACKS = f"this machine lacks a feature of {CPU}-v2, which this program was built for: run it on another machine, or build it with --cpu {CPU}\n"
DECLARED = """declare ptr @__x86_get_cpuid_feature_leaf(i32) #900
declare i64 @__write(i32, ptr, i64) #900
"""


def word_test(number, word, bits, missing):
    """Returns the lines that add the bits which a word of the table lacks to those that are missing."""
    return f"""  %p{number} = call ptr @__x86_get_cpuid_feature_leaf(i32 {word})
  %q{number} = getelementptr inbounds nuw i8, ptr %p{number}, i64 24
  %w{number} = load i32, ptr %q{number}, align 4, !noundef !1
  %x{number} = zext i32 %w{number} to i64
  %y{number} = xor i64 %x{number}, {bits}
  %z{number} = and i64 %y{number}, {bits}
  %m{number} = or i64 %z{number}, {missing}
"""


def refusal():
    """Returns the lines that write the message and end the program with status 127."""
    lines = [f"refuse:\n  %text = alloca [{len(LACKS)} x i8], align 1\n"]
    for number, byte in enumerate(LACKS.encode()):
        lines.append(f"  %t{number} = getelementptr inbounds nuw i8, ptr %text, i64 {number}\n  store i8 {byte}, ptr %t{number}, align 1\n")
    return "".join(lines) + f"  %said = call i64 @__write(i32 2, ptr %text, i64 {len(LACKS)})\n  ret i32 127\n}}\n"


def with_processor_test(lines):
    """Returns the text of the entry function with the test, given its lines in a trial."""
    run = [it for it in lines[3:] if re.search(r" = call i32 |call void |  ret ", it)]
    text, missing = "".join(lines[:3]), "0"
    for number, (word, bits) in enumerate(FEATURES.items()):
        text += word_test(number, word, bits, missing)
        missing = f"%m{number}"
    return f"{text}  %has = icmp eq i64 {missing}, 0\n  br i1 %has, label %run, label %refuse\nrun:\n{''.join(run)}{refusal()}"
