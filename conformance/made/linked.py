"""What is built of a source and what is linked of the text that is generated from it; and the predefined programs in such a text."""
from rows import TOP, Row, Run, rows_of

HERE = TOP / "conformance"

NOTHING = b"(program main\n(proc main () () () () (no-op)))\n"


def is_linked_alike(files):
    """Whether the image j has the words, the registers and the final address of the image i. Without names and slots the number of words
    stands at 100, and no procedures and no marks are behind them."""
    built, linked = files["i"], files["j"]
    return len(linked) > 2400 and built[:84] == linked[:84] and linked[100:-8] in built


def has_predefined_programs(files):
    """Whether the text t ends with the programs of predefined.piton, however it breaks its lines."""
    programs = (HERE / "predefined.piton").read_text()
    return " ".join(files["t"].decode().split()).endswith(" ".join(programs.split()) + ")")


def rows():
    for path in (HERE / "go.rows", HERE / "build.rows"):
        for row in rows_of(path):
            words = row.runs[0].words.split()
            if row.runs[0].status in (0, 3, 5, 6):
                sizes = b" ".join(words[3:5] if words[0] == b"go" else words[2:4])
                runs = [
                    Run(b"build s %b i" % sizes, b"built *\n", stored="i"),
                    Run(b"pit s %b t" % sizes, b"written t\n", stored="t"),
                    Run(b"pbuild t j", b"built *\n", stored="j", content=is_linked_alike),
                ]
                yield Row(f"linked.py: the source of {row.name}", {"s": row.files["s"]}, runs)
    run = Run(b"pit s 2 1 t", b"written t\n", stored="t", content=has_predefined_programs)
    yield Row("linked.py: the predefined programs of a generated text", {"s": NOTHING}, [run])
