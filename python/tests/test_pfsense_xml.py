"""pfSense's config.xml: what it becomes is what others wrote of the rules.debug of the same settings, before the importer was there."""

import pytest
from conftest import ETHERNET, classic, data, udp

from altqplay.workbench.faults import Refused
from altqplay.workbench.operator_inputs import prepared
from test_import import made
from test_import_by_others import by_interface, expected

with open(data("config.xml"), encoding="utf-8") as file:
    TEXT = file.read()


def test_queues_and_rules_are_those_of_rules_debug():
    conf, _notes = made(TEXT)
    assert by_interface(conf) == by_interface(expected("05-pfsense-hfsc.pf")[0])


def test_lines_are_those_of_the_file():
    """The acknowledgements' queue of the second rule of the user: its element begins on the line before its tracker."""
    _conf, notes = made(TEXT)
    assert [(note.line, note.text) for note in notes.all() if note.has_effect] == [(TEXT[:TEXT.index("1700000002")].count("\n"), "qACK")]


def test_aliases_are_played(program, tmp_path):
    (tmp_path / "config.xml").write_text(TEXT.replace("<port>5060</port>", "<port>Calls</port>").replace(
        "<source><any></any></source><destination><any></any><port>Calls", "<source><address>Phones</address></source><destination><any></any><port>Calls"))
    packets = [(1000 * k, ETHERNET + b"\x08\x00" + udp(port, source=source), 300) for k, (port, source) in enumerate(
        [(9999, "c0a80121"), (10000, "c0a80121"), (20000, "c0a8013f"), (5060, "c0a80120"), (5060, "c0a80140")])]
    (tmp_path / "a.pcap").write_bytes(classic(1, packets))
    found = prepared(str(tmp_path / "config.xml"), "em0", [str(tmp_path / "a.pcap")], str(tmp_path / "folder"))
    assert found.classes == ["qDefault", "qVoIP", "qVoIP", "qVoIP", "qDefault"] and found.not_understood() is None


@pytest.mark.parametrize("text, said", [
    (TEXT.replace("<shaper>", "<other>").replace("</shaper>", "</other>"), "no queue of an interface is enabled"), (TEXT.replace("</pfsense>", ""), "no element found"),
    (TEXT.replace("<pfsense>", "<!DOCTYPE x [<!ENTITY a 'b'>]><pfsense>"), "a document type"), ("<pfsense>" + "<a>" * 99, "64 deep"),
    (TEXT.replace("Mb</bandwidthtype><enabled>on</enabled>\n\t\t\t<queue><name>qACK", "Gbit</bandwidthtype><enabled>on</enabled>\n\t\t\t<queue><name>qACK"), "a bandwidth is")])
def test_what_is_refused(text, said):
    with pytest.raises(Refused, match=said):
        made(text, kind="pfsense")


def test_an_element_that_is_not_known_is_said():
    _conf, notes = made(TEXT.replace("<defaultqueue>qVoIP</defaultqueue><descr>", "<wonder>7</wonder><defaultqueue>qVoIP</defaultqueue><descr>"))
    assert "wonder" in [note.text for note in notes.all() if note.has_effect]
