"""A vehicle publishes its pose while the type changes: the library from Python. It prints what the caller in C prints, bindings/c/pose.out.

    RUHVELMA_LIBRARY=out/libxt.so python3 bindings/python/pose.py"""

import ruhvelma
from ruhvelma import Reader, Refused, Rep, Types

# Three versions of a type. The second appends a member; the third has wider numbers. And a type with floats.
VERSIONS = (
    "module geo { @appendable struct Pose { @key string<32> vehicle; long east; long north; }; };",
    "module geo { @appendable struct Pose { @key string<32> vehicle; long east; long north; @optional long heading; }; };",
    "module geo { @appendable struct Pose { @key string<32> vehicle; long long east; long long north; }; };",
    "module geo { @final struct Fix { double height; float speed; }; };",
)
OLDER = {"vehicle": "rover-7", "east": 12500, "north": -300}
NEWER = {**OLDER, "heading": 90}


def show_verdict(what: str, verdict: ruhvelma.Verdict) -> None:
    print(f"{what}: yes" if verdict else f"{what}: no {verdict.rule} {verdict.path}")


def show_refusal(what: str, call, *arguments) -> None:
    try:
        call(*arguments)
    except Refused as refused:
        print(f"{what}: refused {refused.status}" + (f", {refused.text}" if refused.text else ""))


def show_types(types: Types) -> None:
    print("complete identifier:", types.type_id("0/geo::Pose"))
    print("minimal identifier:", types.minimal_id("0/geo::Pose"))
    print(types.idl("0/geo::Pose"), end="")
    show_verdict("the second reads the first", types.judge("1/geo::Pose", "0/geo::Pose"))
    show_verdict("the third reads the first", types.judge("2/geo::Pose", "0/geo::Pose"))
    show_refusal("no such type", types.reader, "geo::Plan", "geo::Pose")


def show_floats(fixes: Reader) -> None:
    sample = fixes.write({"height": 12.5, "speed": 0.1})
    print("floats:", sample.hex(" "))
    print("as bits:", fixes.read_text(sample, numbers=False))
    print("as numbers:", fixes.read_text(sample))
    show_refusal("too large for a float", fixes.write, {"height": 1e39, "speed": 1e39})


def show_newer(first: Reader, second: Reader) -> None:
    print("read by the first:", first.read_text(second.write(NEWER)))
    show_refusal("a text for a number", first.write, {**OLDER, "east": "far"})
    show_refusal("no JSON", first.write_text, "{")


def show_older(first: Reader, second: Reader) -> None:
    sample = first.write(OLDER)
    print("written:", sample.hex(" "))
    print("read by the second:", second.read_text(sample))
    print("key hash:", first.key_hash(sample).hex(" "))
    print("converted:", first.convert(sample, Rep.XCDR1).hex(" "))
    show_refusal("a cut sample", first.read, sample[:-3])


def main() -> None:
    with Types(*VERSIONS) as types:
        show_types(types)
        first = types.reader("0/geo::Pose", "1/geo::Pose")
        second = types.reader("1/geo::Pose", "0/geo::Pose")
        show_floats(types.reader("geo::Fix"))
    with first, second:
        show_older(first, second)
        show_newer(first, second)
    show_refusal("a closed reader", first.read, b"")


if __name__ == "__main__":
    main()
