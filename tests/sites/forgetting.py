"""A story of three sites that also forget, told beside the same story of three shadow sites that never do."""

import os

from story import QUERIES, SITES, Story

SHADOWS = "shadows"


class Shadow(Story):
    """The same story, by the same chance, of sites that never forget. A load has a name that is given, so that both draw the same, and
    an offer is taken by the site that asked for it: that site took all that its summary listed."""

    ACTS = ("load", "load", "load_again", "delete", "delete_rows", "delete_batch", "forget", "forget", "pull", "pull", "merge", "apply_file", "late_offer")

    def kept_for(self, site):
        return [kept for kept in self.kept if kept[0] == site]

    def delete_batch(self, site):
        """All rows of a load, whether the site has it, has it no more or doesn't have it yet."""
        if self.loads:
            (origin, number), rows, _ = self.pick.choice(self.loads)
            last = len(rows) - 1 + self.pick.choice((0, 0, 5))
            self.run("delete-rows", site, f"{origin}.{number}", "0", str(last), prints=b"ok\n")
            self.states[site].deleted.update((origin, number, at) for at in range(last + 1))

    def forget(self, site):
        """A shadow never forgets."""


class Forgetting(Shadow):
    """The sites that forget, and their shadows in a folder of their own."""

    def __init__(self, program, room, number):
        own, shadows = os.path.join(room, "sites"), os.path.join(room, SHADOWS)
        os.mkdir(own)
        os.mkdir(shadows)
        super().__init__(program, own, number)
        self.shadow = Shadow(program, shadows, number)

    def forget(self, site):
        batches, rows = self.states[site].forget()
        self.run("forget", site, prints=f"ok batches={batches} rows={rows}\n".encode())

    def begin(self):
        super().begin()
        self.shadow.begin()

    def step(self):
        site = super().step()
        assert self.shadow.step() == site, "the two stories are not one"
        self.alike(site)
        return site

    def alike(self, site):
        """A site answers as its shadow does."""
        for words in [("dump", "--names", site), *(("query", site, query) for query in QUERIES)]:
            assert self.run(*words) == self.shadow.run(*words), f"{words} differ where batches were forgotten"

    def agree(self):
        """All have taken the same; once each has forgotten, shadows too, they have the same bytes."""
        self.shadow.take_all()
        for site in SITES:
            self.alike(site)
            self.forget(site)
            self.compare(site)
        self.shadow.agree()
        for site in SITES:
            self.shadow.run("forget", site)
            assert self.shadow.bytes_of(site) == self.bytes_of(site), f"{site} and its shadow have different bytes"
        super().agree()
