"""Tests what station-office believes: a full extract that isn't what it seems, another office's state that would do harm, a withdrawn file, and the names of
offices. DOCKER names the program, DESK the program `desk`."""
import shutil

from offices import EXAMPLES, Offices, digest, docker, extract

FULL = extract("DFROC1F", "2024-06-07T21:00", "DFROC1E", schedules=20)
MONDAY = extract("DFROC1G", "2024-06-10T21:00", "DFROC1F", kind="U", schedules=2, departs="0905")
TUESDAY = extract("DFROC1H", "2024-06-11T21:00", "DFROC1G", kind="U", schedules=1, prefix="B")
# An extract as large as the good one and made after Monday's update, but with wrong times.
WRONG = extract("DFROC1X", "2024-06-10T22:00", "DFROC1F", schedules=20, departs="1111")


class Extracts(Offices):
    """Which full extracts are believed."""

    def setUp(self):
        super().setUp()
        self.north = self.office("north")

    def held(self, name, content, *reason, **how):
        """Checks that an extract is held for a reason, that STATE is unchanged, and that the command which the message names takes the extract."""
        before = digest(self.north.state)
        said = self.north.take(name, content, status=1, **how)
        self.says(said, f"in/{name}", *reason)
        place = self.north.folder / "held" / f"{name}.zst"
        self.says(said, f"`station-office --force take {self.north.state} {place}` takes it all the same")
        self.assertEqual((digest(self.north.state), self.north.list("in")), (before, []))
        self.assertIn(reason[0], (self.north.folder / "held" / f"{name}.why").read_text())
        reference = content[32:39].decode()
        self.assertNotIn(reference, self.north.known())
        self.north.run("take", place, force=True)
        self.assertEqual((self.north.known()[0], self.north.list("held")), (reference, []))

    def test_of_2034(self):
        """The example's full extract with a mistyped date in its header: what the office knew stays known, and what it sends to the others doesn't change."""
        full = (EXAMPLES / "full.cif").read_bytes()
        self.north.take("full.cif", full)
        self.north.morning()
        sent = digest(self.north.sent())
        self.north.put("wrong.cif", full.replace(b"0706242100", b"1506342100", 1))
        dockers, said = self.north.morning(status=1)
        self.says(said, "wrong.cif", "lies more than a day ahead of the clock")
        self.assertEqual((digest(self.north.sent()), self.north.state.read_bytes()), (sent, self.made_of(full)))
        self.assertIn("5N01", dockers)

    def test_ahead(self):
        """A file that is a day ahead of the clock is believed, but not one that is a minute more ahead. This is the same for full extracts and for updates."""
        self.north.take("full.cif", FULL)
        self.north.take("day.cif", extract("DFROC1T", "2024-06-13T06:00", schedules=20))
        self.assertEqual(self.north.known(), ["DFROC1T"])
        self.held("more.cif", extract("DFROC1U", "2024-06-13T06:01", schedules=20), "the full extract DFROC1U of 2024-06-13 06:01 lies more than a day ahead of the clock")
        said = self.north.take("update.cif", extract("DFROC1V", "2024-06-13T06:02", "DFROC1U", kind="U", schedules=1), status=1)
        self.says(said, "the update DFROC1V of 2024-06-13 06:02 lies more than a day ahead of the clock")

    def test_half(self):
        """An extract with half the schedules of the last full extract is believed, and one with fewer isn't."""
        self.north.take("full.cif", FULL)
        self.north.take("half.cif", extract("DFROC1T", "2024-06-08T21:00", schedules=10))
        self.assertEqual(self.north.known(), ["DFROC1T"])
        self.held("less.cif", extract("DFROC1U", "2024-06-09T21:00", schedules=4), "it would leave 4 of 10 schedules")

    def test_last_taken(self):
        """After a file was forced, later files are compared with it."""
        self.north.take("full.cif", FULL)
        self.held("less.cif", extract("DFROC1T", "2024-06-08T21:00", schedules=3), "it would leave 3 of 20 schedules")
        self.north.take("small.cif", extract("DFROC1U", "2024-06-09T21:00", schedules=2))
        self.assertEqual(self.north.known(), ["DFROC1U"])

    def test_merged(self):
        """If the national timetable is known from another office, a regional extract doesn't replace it without a question."""
        south = self.office("south")
        south.take("full.cif", FULL)
        south.run("send")
        self.north.run("merge")
        self.held("region.cif", extract("DFROC1T", "2024-06-08T21:00", schedules=3), "it would leave 3 of 20 schedules")

    def test_first(self):
        """A first full extract is taken, however small, and so is one that replaces nothing newer. But a full extract has what the updates before it brought."""
        self.north.take("first.cif", extract("DFROC1F", "2024-06-11T21:00", "DFROC1E", schedules=1))
        self.assertEqual(self.north.known(), ["DFROC1F"])
        self.north.take("older.cif", extract("DFROC1E", "2024-06-09T21:00", schedules=1))
        self.assertEqual(self.north.known(), ["DFROC1F"])
        self.north = self.office("east")
        self.north.take("update.cif", extract("DFROC1G", "2024-06-10T21:00", "DFROC1F", kind="U", schedules=50))
        self.held("less.cif", extract("DFROC1T", "2024-06-11T21:00", "DFROC1E", schedules=1), "it would leave 1 of 50 schedules")

    def test_named(self):
        """A file that was named on the command line stays where it is."""
        self.north.take("full.cif", FULL)
        path = self.root / "small.cif"
        path.write_bytes(extract("DFROC1T", "2024-06-08T21:00", schedules=3))
        said = self.north.run("take", path, status=1)[1]
        self.says(said, f"`station-office --force take {self.north.state} {path}` takes it all the same")
        self.assertTrue(path.exists())
        self.assertEqual(self.north.list("held"), [])
        self.north.run("take", path, force=True)
        self.assertTrue(path.exists())
        self.assertEqual(self.north.known(), ["DFROC1T"])


class States(Offices):
    """Which states of other offices are merged."""

    def setUp(self):
        super().setUp()
        self.north, self.south = self.office("north"), self.office("south")
        self.north.take("full.cif", FULL)

    def refused(self, content, reason):
        """Checks that South's state isn't merged after South took a file by force, until North is forced too."""
        self.south.put("wrong.cif", content)
        self.south.run("take", *(self.south.folder / "in").iterdir(), force=True)
        self.south.run("send")
        before = digest(self.north.state)
        dockers, said = self.north.morning(status=1)
        self.says(said, f"{self.south.name()}.state.zst", f"office {self.south.name()}: ", reason)
        self.says(said, f"`station-office --force merge {self.north.state} {self.north.folder}/swap/{self.south.name()}.state.zst` merges it all the same")
        self.assertEqual(digest(self.north.state), before)
        self.assertIn("0900", dockers)
        self.north.run("merge", self.north.folder / "swap" / self.south.sent().name, force=True)
        self.assertEqual(self.north.known(), self.south.known())

    def test_ahead(self):
        self.refused(extract("DFROC1T", "2024-06-13T06:01", schedules=20), "it knows the full extract DFROC1T of 2024-06-13 06:01, which lies more than a day ahead of the clock")

    def test_less(self):
        self.refused(extract("DFROC1T", "2024-06-08T21:00", schedules=3), "it would leave 3 of 20 schedules")

    def test_honest(self):
        """A state with a newer timetable is merged, and so is a small one that replaces nothing."""
        self.south.take("newer.cif", extract("DFROC1T", "2024-06-08T21:00", schedules=15))
        self.south.run("send")
        east = self.office("east")
        east.take("update.cif", extract("DFROC1W", "2024-06-08T22:00", "DFROC1T", kind="U", schedules=1))
        east.run("send")
        west = self.office("west")
        west.take("older.cif", extract("DFROC1A", "2024-05-01T21:00", schedules=1))
        west.run("send")
        said = self.north.run("merge")[1]
        self.says(said, self.south.name(), "it brought the full extract DFROC1T of 2024-06-08 21:00")
        self.says(said, west.name(), "it brought nothing new")
        self.assertEqual(self.north.known(), ["DFROC1T", "DFROC1W"])


    def test_same_full(self):
        """A state with the same full extract isn't merged if its content was different. If it is forced, both count together."""
        part = extract("DFROC1F", "2024-06-07T21:00", "DFROC1E", schedules=3, prefix="C")
        self.south.take("part.cif", part)
        self.south.run("send")
        before = digest(self.north.state)
        self.says(self.north.run("merge", status=1)[1], self.south.name(), "its full extract DFROC1F of 2024-06-07 21:00 has other content", "23 entries differ")
        self.assertEqual(digest(self.north.state), before)
        self.says(self.north.run("merge", force=True)[1], self.south.name(), "two files with one stamp have different content")
        self.assertEqual(self.north.state.read_bytes(), self.made_of(FULL, part))


class Withdrawing(Offices):
    """Withdrawing a file."""

    def test_heal(self):
        """Three offices with the same wrong full extract heal together, and nothing that another office took is lost."""
        north, south, east = offices = [self.office(name) for name in ("north", "south", "east")]
        north.put("full.cif", FULL)
        north.put("monday.cif", MONDAY)
        for office in offices:
            office.morning()
        north.put("wrong.cif", WRONG)
        for office in offices:
            office.morning()
        south.put("tuesday.cif", TUESDAY)
        for office in (south, north, east):
            dockers, _ = office.morning(status=5)
            self.assertIn("1111  D", dockers)
        self.assertEqual({office.state.read_bytes() for office in offices}, {self.made_of(FULL, MONDAY, WRONG, TUESDAY)})

        said = north.run("withdraw", "DFROC1X")[1]
        self.says(said, "it is made anew, of copies/")
        self.assertEqual((north.folder / "withdrawn").read_text(), "2024-06-10 2200 DFROC1X\n")
        dockers, said = north.morning(status=1)
        self.assertIn("0905  D", dockers)
        for office in (south, east):
            self.says(said, office.sent().name, "withdrawn here", f"office {office.name()} still has to withdraw it")
        east.morning(status=5)
        south.run("withdraw", "DFROC1X")
        east.run("withdraw", "DFROC1X")
        for office in (south, north, east):
            office.morning()
        self.assertEqual({office.state.read_bytes() for office in offices}, {self.made_of(FULL, MONDAY, TUESDAY)})

        north.put("again.cif", WRONG)
        said = north.morning(status=1)[1]
        self.says(said, "again.cif", "the full extract DFROC1X of 2024-06-10 22:00 is withdrawn here, so it isn't taken")
        self.silent_on(said, "still has to withdraw")
        self.assertEqual(north.list("refused"), ["again.cif.why", "again.cif.zst", "wrong.cif.why", "wrong.cif.zst"])
        self.assertEqual(north.state.read_bytes(), self.made_of(FULL, MONDAY, TUESDAY))

    def test_taken(self):
        """If no copy is sound, STATE is made from taken/, and keeps its horizon."""
        north = self.office("north")
        north.put("full.cif", FULL)
        north.put("monday.cif", MONDAY)
        north.take("wrong.cif", WRONG)
        north.run("horizon", "2024-06-01")
        north.take("tuesday.cif", TUESDAY)
        shutil.rmtree(north.folder / "copies")
        said = north.run("withdraw", "DFROC1X")[1]
        self.says(said, "it is made anew, of 3 files in taken/")
        expected = self.root / "horizon.state"
        expected.write_bytes(self.made_of(FULL, MONDAY, TUESDAY))
        docker("horizon", expected, "2024-06-01")
        self.assertEqual(digest(north.state), digest(expected))

    def test_last_copy(self):
        """The only sound copy is the oldest of seven. It is used before a newer copy takes its place."""
        north, south = self.office("north"), self.office("south")
        south.take("full.cif", FULL)
        south.run("send")
        north.run("merge")
        shutil.rmtree(north.folder / "copies")
        north.take("wrong.cif", WRONG)
        for number in range(6):
            shutil.copy(north.state, north.folder / "copies" / f"north.state.2099010{number}.zst")
        north.run("withdraw", "DFROC1X")
        self.assertEqual(north.state.read_bytes(), self.made_of(FULL))

    def test_update(self):
        """An update is withdrawn, and the files before and after it stay."""
        north = self.office("north")
        for name, content in (("full.cif", FULL), ("monday.cif", MONDAY), ("tuesday.cif", TUESDAY)):
            north.take(name, content)
        said = north.run("withdraw", "DFROC1G")[1]
        self.says(said, "withdrawn: DFROC1G, which comes before the update DFROC1H of 2024-06-11 21:00")
        self.assertEqual(north.state.read_bytes(), self.made_of(FULL, TUESDAY))

    def test_not_forced(self):
        """--force doesn't take, merge or restore what is withdrawn."""
        north, south = self.office("north"), self.office("south")
        north.take("full.cif", FULL)
        north.take("wrong.cif", WRONG)
        shutil.copy(north.state, self.root / "poisoned.state")
        north.run("withdraw", "DFROC1X")
        before = digest(north.state)
        path = self.root / "wrong.cif"
        path.write_bytes(WRONG)
        north.run("take", path, status=1, force=True)
        self.says(north.run("merge", self.root / "poisoned.state", status=1, force=True)[1], "office poisoned still has to withdraw it")
        self.says(north.run("restore", self.root / "poisoned.state", status=1, force=True)[1], "which is withdrawn, so STATE stays as it is")
        self.assertEqual(digest(north.state), before)
        south.run("merge", self.root / "poisoned.state")
        south.run("send")
        said = north.run("take", path, status=1)[1]
        self.says(said, f"office {south.name()} still has to withdraw it")

    def test_before_it_came(self):
        """A file can be withdrawn by its moment before it comes. If STATE knows it all the same, STATE isn't sent, and the program says so."""
        north = self.office("north")
        north.take("full.cif", FULL)
        self.says(north.run("withdraw", "DFROC1X", status=1)[1], "no such file is known here")
        self.says(north.run("withdraw", "DFROC1X", "2024-06-10T22:00")[1], "it doesn't know DFROC1X, so it stays as it is")
        north.take("wrong.cif", WRONG, status=1)
        (self.root / "wrong.cif").write_bytes(WRONG)
        docker("take", north.state, self.root / "wrong.cif")
        self.says(north.run("send", status=1)[1], "it isn't sent: it knows the full extract DFROC1X")
        self.says(north.run("known", status=1)[1], "which is withdrawn", f"`station-office withdraw {north.state} DFROC1X` drops it")
        north.run("withdraw", "DFROC1X")
        self.assertEqual(north.state.read_bytes(), self.made_of(FULL))

    def test_two_of_one_reference(self):
        north = self.office("north")
        north.take("full.cif", FULL)
        later = extract("DFROC1F", "2024-06-11T21:00", "DFROC1F", kind="U", schedules=20, departs="1200")
        north.take("later.cif", later)
        said = north.run("withdraw", "DFROC1F", status=1)[1]
        self.says(said, "several files have this reference", "2024-06-07T21:00 or 2024-06-11T21:00")
        self.assertFalse((north.folder / "withdrawn").exists())
        north.run("withdraw", "DFROC1F", "2024-06-11")
        self.assertEqual(north.state.read_bytes(), self.made_of(FULL))
        again = extract("DFROC1F", "2024-06-11T22:00", "DFROC1E", schedules=20, departs="1300")
        north.take("again.cif", again)
        north.run("withdraw", "DFROC1F")
        self.assertEqual(north.state.read_bytes(), self.made_of(FULL))
        self.assertEqual(len((north.folder / "withdrawn").read_text().splitlines()), 2)

    def test_list(self):
        """If the list of withdrawn files can't be read, it doesn't count as empty."""
        north = self.office("north")
        (north.folder / "withdrawn").write_text("# by hand\n\n2024-06-10 22:00 DFROC1X\n")
        self.says(north.take("full.cif", FULL, status=4), "withdrawn", "each line has a date, a time and a reference")
        self.assertEqual(north.list("in"), ["full.cif"])
        (north.folder / "withdrawn").write_text("# by hand\n\n2024-06-10 2200 DFROC1X\n")
        north.run("take")
        north.take("wrong.cif", WRONG, status=1)


class Names(Offices):
    """No two offices write the same file."""

    def test_same_state_name(self):
        """Two offices whose STATE files have the same name exchange what they know."""
        a, b = self.office("a", "office.state"), self.office("b", "office.state")
        a.take("full.cif", FULL)
        b.take("monday.cif", MONDAY)
        for office in (a, b, a):
            office.run("merge")
            office.run("send")
        self.assertEqual(a.known(), ["DFROC1F", "DFROC1G"])
        self.assertEqual(a.known(), b.known())
        self.assertNotEqual(a.name(), b.name())
        self.assertEqual(sorted(path.name for path in self.swap.iterdir()), sorted([a.sent().name, b.sent().name]))
        self.assertRegex(a.name(), r"^[\w-]+-office-[a-z]{6}$")

    def test_copied_folder(self):
        """A copy of an office's folder has the same office name. The morning says so, overwrites nothing, and reads what the other office put there."""
        north = self.office("north")
        north.take("full.cif", FULL)
        north.morning()
        shutil.copytree(north.folder, self.root / "copy", symlinks=True)
        north.take("monday.cif", MONDAY)
        north.morning()
        sent = digest(north.sent())
        copy = north.__class__.__new__(north.__class__)
        copy.test, copy.folder, copy.state = self, self.root / "copy", self.root / "copy" / "north.state"
        copy.put("tuesday.cif", TUESDAY)
        said = copy.morning(status=1)[1]
        self.says(said, f"Another office has the name {north.name()}", f"Remove {copy.folder}/north.state.name, and this office gets a name of its own")
        self.assertEqual(digest(north.sent()), sent)
        self.assertEqual(copy.known(), ["DFROC1F", "DFROC1G", "DFROC1H"])
        self.says(north.morning(status=1)[1], f"another office has the name {north.name()} too")
        north.morning()
        (copy.folder / "north.state.name").unlink()
        copy.morning()
        north.morning()
        self.assertEqual((north.known(), digest(north.state)), (copy.known(), digest(copy.state)))
        self.assertNotEqual(north.name(), copy.name())

    def test_name_stays(self):
        """A name is made only once, even for an office that is older than names."""
        north = self.office("north")
        first = north.name()
        north.run("new", force=True)
        north.run("send")
        self.assertEqual(north.name(), first)
        (north.folder / "north.state.name").unlink()
        north.run("send")
        self.assertRegex(north.name(), r"-north-[a-z]{6}$")
