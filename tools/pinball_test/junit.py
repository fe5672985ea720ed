"""Writes results as JUnit's XML, which most servers for continuous integration read."""
from itertools import groupby
from pathlib import Path
from xml.etree import ElementTree

from .report import told
from .running import Result
from .words import printable


def document(results: list[Result]) -> bytes:
    top = ElementTree.Element("testsuites", counts(results))
    for file, group in groupby(results, key=lambda it: it.file):
        top.append(suite(file, list(group)))
    ElementTree.indent(top)
    return ElementTree.tostring(top, encoding="utf-8", xml_declaration=True) + b"\n"


def counts(results: list[Result]) -> dict[str, str]:
    errors = sum(it.is_unreadable for it in results)
    failures = sum(not it.passed for it in results) - errors
    seconds = f"{sum(it.seconds for it in results):.3f}"
    return {"tests": str(len(results)), "failures": str(failures), "errors": str(errors), "time": seconds}


def suite(file: Path, results: list[Result]) -> ElementTree.Element:
    found = ElementTree.Element("testsuite", {"name": printable(str(file)), **counts(results)})
    for result in results:
        case = ElementTree.SubElement(
            found, "testcase", classname=printable(file.stem), name=printable(result.title), time=f"{result.seconds:.3f}"
        )
        if result.failure:
            kind = "error" if result.is_unreadable else "failure"
            fault = ElementTree.SubElement(case, kind, message=printable(result.failure.message))
            fault.text = printable("\n".join(told(result)), also="\n")
    return found
