"""Tests gafd_sync beside lepton-netlist: a folder that was pulled has the nets that lepton makes."""
import pathlib
import shutil
import subprocess
import sys
import unittest

from laboratory import Laboratory
from served import TOP, program

sys.path.append(str(TOP / "told"))

from lepton import nets_of_list, nets_of_tango

EXAMPLES = pathlib.Path("/usr/share/doc/lepton-eda/examples")
LIBRARY = "/usr/share/lepton-eda/sym"


@unittest.skipUnless(shutil.which("lepton-netlist"), "there is no lepton-netlist")
class LeptonTest(Laboratory):
    def test_a_hierarchy_of_the_examples(self):
        self.have_same_nets([TOP / "examples" / name for name in ("stereo.sch", "channel.sch")])

    @unittest.skipUnless((EXAMPLES / "gTAG").is_dir(), "there are no examples of lepton-eda")
    def test_a_board_on_five_sheets(self):
        names = ("", "-consio", "-jtagio", "-psu", "-ucont")
        self.have_same_nets([EXAMPLES / f"gTAG/gTAG{name}.sch" for name in names])

    @unittest.skipUnless((EXAMPLES / "TwoStageAmp").is_dir(), "there are no examples of lepton-eda")
    def test_an_amplifier(self):
        self.have_same_nets([EXAMPLES / "TwoStageAmp/TwoStageAmp.sch"])

    def have_same_nets(self, sheets):
        """The first sheet is pushed with those below it, and pulled by another engineer."""
        for path in sheets:
            shutil.copy(path, self.ann.folder)
            folders = {str(it.parent) for it in path.parent.rglob("*.sym")}
            words = [str(TOP / "contrib/gafd-bring"), path.name, *sorted(folders), LIBRARY]
            subprocess.run(words, cwd=self.ann.folder, capture_output=True, timeout=240)
        self.assertEqual(self.ann("push", *[path.name for path in sheets])[0], 0)
        self.assertEqual(self.bob("pull", "--lepton")[0], 0)
        top = sheets[0].name
        theirs = nets_of_tango(self.said("lepton-netlist", "-g", "tango", "-o", "-", top))
        self.assertEqual(nets_of_list(self.said(program(), "netlist", top)), theirs)
        self.assertGreater(len(theirs), 3)

    def said(self, *words):
        done = subprocess.run(words, cwd=self.bob.folder, capture_output=True, timeout=480)
        return done.stdout.decode()
