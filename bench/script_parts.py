"""A module of LLVM that the stand-in for the kit's compiler has, and what has to hold of the parts into which the script divides it."""
import os
import re
import signal
import time

from script_copy import wait_for
from seat_checks import SECONDS, expect

# the text of a module: what `main` reaches and what it doesn't, functions of one line and one of many
MANY = "\n".join(f"  store i8 {at}, ptr %a0" for at in range(99))
MODULE = f"""; ModuleID = 'module.bc'
source_filename = "rattle"
target triple = "x86_64-unknown-linux-gnu"

@static.0 = private global [1 x i8] zeroinitializer, align 1
@static.1 = private unnamed_addr constant [9 x i8] c"@isolated", align 1
@static.2 = private constant <{{ ptr, ptr }}> <{{ ptr @"a::by_table", ptr @static.1 }}>, align 8
@static.3 = private constant [1 x i8] c"3", align 1

; Function Attrs: nounwind
declare i32 @isatty(i32) #1

define internal void @"a::long<\\22q\\22>"(ptr %a0) #0 {{
start:
  call void @llvm.memset.p0.i64(ptr %a0, i8 -86, i64 8, i1 false)
  call void @"checks::Value"(i8 1)
{MANY}
  ret void
}}

declare void @llvm.memset.p0.i64(ptr, i8, i64, i1) #2

define internal void @"a::by_table"() #0 {{
start:
  call i32 @isatty(i32 0)
  ret void
}}

define internal void @isolated() #0 {{
start:
  call void @"a::by_table"()
  store i8 0, ptr @static.3
  ret void
}}

define i32 @main(i32 %a0, ptr %a1) #0 {{
start:
  call void @"a::long<\\22q\\22>"(ptr @static.0)
  call void @"a::short"(ptr @static.2)
{MANY}
  ret i32 0
}}

define internal void @"a::short"(ptr %a0) #0 {{
start:
  call void @"a::long<\\22q\\22>"(ptr %a0)
  ret void
}}

define internal void @"checks::Value"(i8 %a0) #3 {{
start:
  call void @llvm.trap()
  unreachable
}}

declare void @llvm.trap() #1

attributes #0 = {{ nounwind sanitize_address "frame-pointer"="all" "probe-stack"="inline-asm" }}
attributes #1 = {{ nounwind }}
attributes #2 = {{ nocallback }}
attributes #3 = {{ sanitize_address "frame-pointer"="all" }}

!0 = !{{}}
"""
LONG, SHORT, TABLE, CHECK = '"a::long<\\22q\\22>"', '"a::short"', '"a::by_table"', '"checks::Value"'
REACHED = {"main", LONG, SHORT, TABLE, CHECK, "static.0", "static.1", "static.2"}
NAME = re.compile(r'@("[^"]*"|[-\w.$]+)')
KINDS = {"define available_externally hidden": "given", "define hidden": "own", "define i32 @main": "own", "declare ": "declared"}


def kind_of(line):
    """Whether a line defines, gives or declares something; nothing of another line."""
    if line.startswith("@"):
        return "given" if " = available_externally hidden " in line else "own" if " = hidden " in line else "unknown"
    if line.startswith(("define ", "declare ")):
        return next((kind for begin, kind in KINDS.items() if line.startswith(begin)), "unknown")
    return None


def names_of(text):
    """The names of a part by kind, and all that it names outside strings."""
    kinds = {"own": [], "given": [], "declared": [], "unknown": []}
    for line in text.splitlines():
        if kind_of(line):
            kinds[kind_of(line)].append(NAME.search(line)[1])
    return kinds, set(NAME.findall(re.sub(r'c"[^"]*"', "", text)))


def expect_parts(folder, count):
    """Each of at most so many parts defines its own, and has or declares all else that it names, once; together they define what is reached."""
    texts = []
    for name in sorted(os.listdir(folder)):
        with open(f"{folder}/{name}", encoding="utf-8") as file:
            texts.append(file.read())
    own, given = [], []
    for text in texts:
        kinds, named = names_of(text)
        known = [name for names in kinds.values() for name in names]
        expect("lines of no kind, and what is there twice", ([], len(known)), (kinds["unknown"], len(set(known))))
        expect("what a part names and hasn't", set(), named - set(known))
        own += kinds["own"]
        given += kinds["given"]
    expect("what the parts define", sorted(REACHED), sorted(own))
    expect("how many parts", True, min(2, count) <= len(texts) <= count)
    expect("what comes with a body where it isn't defined", {SHORT, CHECK} if count > 1 else set(), {SHORT, CHECK, LONG, "main"} & set(given))
    for text in texts:
        expect("fills and attributes", (0, 0, True), (text.count("i8 -86"), text.count("sanitize"), '"probe-stack"' in text))
    expect("checks", True, all('call void @"checks::Value"(i8 1)' in text for text in texts if f"define hidden void @{LONG}" in text))


def made_in_parts(copy):
    """With a compiler of the kit the program is linked of parts, each compiled as the kit would, but optimised and without checks of addresses."""
    expect("an answer", "checked waves\n", copy.run("waves")[1])
    expect("calls of rt, and links", (1, 1), (copy.calls(), len(copy.noted("linked"))))
    calls = sorted(copy.noted("compiled"))
    expect("a call of the compiler", "-march=x86-64 -O1 -Wno-override-module -c -x ir part0.ll -o part0.o", calls[0])
    expect("calls of the compiler", len(calls), len(os.listdir(f"{copy.kit}/parts")))
    expect_parts(f"{copy.kit}/parts", len(os.sched_getaffinity(0)))
    copy.expect_nothing_left()


def parts_that_fail(copy):
    """Where a part can't be compiled or linked, or the module has another form, the kit's compiler makes the program, in the same call of rt."""
    for mode, module in (("parts-refused", MODULE), ("link-refused", MODULE), ("", "no module"), ("", ""), ("", MODULE.replace("@main", "@other"))):
        copy.set_mode(mode)
        copy.write("kit/module.ll", module)
        copy.touch("low")
        expect(f"an answer with {mode or module[:9]}", (0, "checked waves\n", 1), (*copy.run("waves")[:2], copy.calls()))
        compiled = [line.split()[5] for line in copy.noted("compiled")]
        expect("links, and the last call of the compiler", ([], ["module.bc"]), (copy.noted("linked"), compiled[-1:]))
        copy.expect_nothing_left()


def kit_that_is_where_it_is(copy):
    """Where rt doesn't work in a folder of links to its kit, the kit itself makes the program."""
    copy.set_mode("moved")
    expect("an answer, and calls of rt", (0, "checked waves\n", 2), (*copy.run("waves")[:2], copy.calls()))
    expect("what is kept, and links", (["mpwb-checked"], []), (copy.kept(), copy.noted("linked")))
    copy.expect_nothing_left()


def interrupted_in_parts(copy):
    """What is interrupted while parts are compiled leaves no process and keeps nothing."""
    copy.set_mode("parts-slow")
    started = copy.start("waves")
    wait_for(f"{copy.kit}/begun")
    compiling = int(copy.noted("begun")[0])
    started.send_signal(signal.SIGTERM)
    started.communicate(timeout=SECONDS)
    expect("an interrupted run", (130, []), (started.returncode, copy.kept()))
    copy.expect_nothing_left()
    expect("the compiler", True, ends(compiling))


def ends(process):
    """Whether a process ends."""
    end = time.monotonic() + SECONDS / 2
    while time.monotonic() < end:
        try:
            with open(f"/proc/{process}/stat", encoding="ascii") as file:
                if file.read().split()[2] == "Z":
                    return True
        except OSError:
            return True
        time.sleep(0.01)
    return False
