"""What texts alone show: words of specifications, counts of steps, clauses that documents name, mutations."""
from tests.harness import Case
from tests.texts import clauses, mutations, steps, words


class Texts(Case):
    def is_in_order(self, looks):
        found = list(looks)
        self.holds(found, "something to look at", found)
        for what, fault in found:
            with self.subTest(what):
                self.wants(fault, None, what)

    def test_words(self):
        """A word of specifications is defined in one crate, but for those of .ci/words.txt."""
        self.is_in_order(words.looks())

    def test_steps(self):
        """A call whose steps a contract bounds does no work that isn't counted."""
        self.is_in_order(steps.looks())

    def test_clauses(self):
        """Every clause and word that a document names is in the file that it names."""
        self.is_in_order(clauses.looks())

    def test_mutations(self):
        """Every mutation can be applied, and says what would break."""
        self.is_in_order(mutations.looks())


class Steps(Case):
    """What is seen of a function that counts its steps, planted beside one that ticks."""

    TICKING = """
impl Book {
    fn scan(&self, steps: &mut Steps) -> Option<u32> {
        for group in 0..self.len() {
            steps.tick();
        }
        None
    }
"""

    def finds(self, wanted, *lines):
        text = self.TICKING + "".join(f"    {line}\n" for line in lines) + "}\n"
        found = dict(steps.looks_at(list(steps.functions_in("planted.rt", text)), {}))
        self.wants(found.pop("scan of planted.rt"), None, "the function that ticks")
        self.wants(list(found.values()), [wanted], "what is wrong with the planted one")

    def test_all_counted(self):
        self.finds(None, "fn hole(&self, steps: &mut Steps) -> u32 {", "    self.scan(steps).unwrap_or(0)", "}")

    def test_own_count(self):
        own = ["fn count(&self) -> u32 {", "    0", "}", "fn hole(&self, steps: &mut Steps) -> u32 {"]
        self.finds(None, *own, "    self.count()", "}")
        self.finds("walks a list by a method", *own, "    self.iter().count() as u32", "}")

    def test_scan_by_find(self):
        wanted = "walks a list by a method"
        head = "fn hole(&self, steps: &mut Steps) -> Option<u32> {"
        self.finds(wanted, head, "    (0..self.len()).find(|group| self.is_open(*group))", "}")
        self.finds(wanted, head, "    Iterator::find(&mut (0..self.len()), |group| self.is_open(*group))", "}")

    def test_scan_in_a_function_that_does_not_count(self):
        uncounted = "fn first(&self) -> Option<u32> {", "    (0..self.len()).find(|group| self.is_open(*group))", "}"
        head = "fn hole(&self, steps: &mut Steps) -> Option<u32> {"
        self.finds("calls first, which doesn't count its steps", *uncounted, head, "    self.first()", "}")

    def test_loop_as_a_value(self):
        head = "fn hole(&self, steps: &mut Steps) -> u32 {"
        lines = "let group = loop {", "    if self.is_open(at) {", "        break at;", "    }", "};", "group"
        wanted = "has a loop without a tick: loop {"
        self.finds(wanted, head, *(f"    {line}" for line in lines), "}")
        self.finds(None, head, f"    {lines[0]}", "        steps.tick();", *(f"    {line}" for line in lines[1:]), "}")
        self.finds(f"{wanted} break self.next(); }}", head, "    loop { break self.next(); }", "}")
        self.finds(wanted, head, "    steps.tick();", "    match at {", "    0 => loop {", "    }", "    }", "}")

    def test_recursion(self):
        wanted, head = "calls itself without a tick", "fn hole(&self, at: u32, steps: &mut Steps) -> u32 {"
        self.finds(wanted, head, "    self.hole(at + 1, steps)", "}")
        self.finds(wanted, head, "    Book::hole(self, at + 1, steps)", "}")
        self.finds(wanted, head, "    let other = self;", "    other.hole(at + 1, steps)", "}")
        self.finds(None, head, "    steps.tick();", "    self.hole(at + 1, steps)", "}")

    def test_recursion_by_another(self):
        uncounted = "fn first(&self, at: u32) -> u32 {", "    self.second(at)", "}"
        uncounted += "fn second(&self, at: u32) -> u32 {", "    self.first(at + 1)", "}"
        head = "fn hole(&self, steps: &mut Steps) -> u32 {"
        self.finds("calls first, which doesn't count its steps", *uncounted, head, "    self.first(0)", "}")

    def test_another_types_method_of_the_same_name(self):
        self.finds(None, "fn hole(&self, units: &Units, steps: &mut Steps) -> u32 {", "    units.hole(steps)", "}")


class Tokens(Case):
    """How the changes of a mutation are found."""

    CODE = "fn a() {\n    if number\n        < 4 {\n        one(number);\n    }\n}\n"
    CODE += "\nfn b() {\n    if count < 5 { two(count); }\n}\n"

    def becomes(self, old, new, wanted, **how):
        found = mutations.changed(self.CODE, old, new, **how)
        self.wants(found and found[0], wanted and self.CODE.replace(*wanted), f"{new} in place of {old}")

    def test_text_as_it_stands(self):
        self.becomes("count < 5", "count < 6", ("count < 5", "count < 6"))

    def test_tokens_in_another_layout(self):
        self.becomes("if number < 4 {", "if number < 5 {", ("if number\n        < 4 {", "if number < 5 {"))

    def test_another_name(self):
        self.becomes("if $n < 5 { two($n);", "if $n < 6 { two($n);", ("if count < 5 { two", "if count < 6 { two"))

    def test_two_names_that_differ(self):
        self.becomes("if $n < 5 { two($m); }", "{ $m }", ("if count < 5 { two(count); }", "{ count }"))
        self.becomes("$n < 4 { two($n);", "", None)

    def test_two_places(self):
        self.becomes("if $n <", "if $n >", None)

    def test_place_in_a_function(self):
        end = self.CODE.index("fn b")
        self.becomes("if $n <", "if $n >", ("if count <", "if count >"), is_meant=lambda at: at > end)

    def test_no_part_of_a_word(self):
        self.becomes("ount < 5 $n", "", None)
        self.becomes("$n( count )", "", ("two(count)", ""))
