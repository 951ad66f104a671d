"""Judges of claims by answers, each with one rule left out, for play-answers: what they accept wrongly, play has to refute."""
from answer_maker import DEATH, LIFE, TWO_AREAS
from answers import AnswerClaim, Area, DeathClaim, union


class OutsideIsNoAnchor(Area):
    """Stones of the other side's that are joined to the outside fall like others."""

    def rooted(self, state):
        return 0

    def loose(self, state):
        return state.other & ~self.grid.joined(self.grid.beside(self.empty(state)), state.other)


class LibertyOutsideCounts(Area):
    """A kept stone beside the outside is free."""

    def free(self, state, held):
        return super().free(state, held | self.stones(state) & self.grid.beside(self.outside))


class SuicideIsNotAsked(Area):
    """The other side's suicide of several stones is taken for no move."""

    def after_other(self, state, point):
        after, taken = super().after_other(state, point)
        is_suicide = not after.other >> point & 1 and not taken
        return (state, 0) if is_suicide else (after, taken)


class CoverWithFewerStones(Area):
    """A state covers others in which stones are missing that are not joined to the outside."""

    def covers(self, known, state):
        return known.keeper == state.keeper and not state.other & ~known.other


class CoverWithMoreStones(Area):
    """A state covers others that have more stones of the other side's."""

    def covers(self, known, state):
        return known.keeper == state.keeper and not known.other & ~state.other & ~self.rooted(known)


class EyeReachesOutside(Area):
    """An eye may be open to the outside."""

    def eyes(self, state):
        parts = self.grid.parts((self.region | self.outside) & ~state.keeper)
        return [part & self.region for part in parts if part & self.empty(state)]


class OneEyeIsEnough(Area):
    """A kept stone with one eye is at rest."""

    def has_eyes(self, part, eyes):
        return bool(part & self.held) or any(not eye & ~self.grid.beside(part) for eye in eyes)


class NothingHasToBeGiven(Area):
    """Stones that another area leans on need nothing in their own."""

    def is_sound(self, state):
        return not self.unsafe(state) and not self.loose(state)

    def has_eyes(self, part, eyes):
        return bool(part & self.held) or super().has_eyes(part, eyes)


class UnsureLoss(Area):
    """Any loss of the killer's is a sure one."""

    def is_sure(self, before, taken):
        return True


class OwnStonesTaken(Area):
    """The killer may move where his own stone then has no liberty."""

    def is_safe(self, state, point):
        return True


class AnyAreaHolds(AnswerClaim):
    """What another area keeps is held, also where the two lean on each other."""

    @staticmethod
    def hold(areas):
        for area in areas:
            area.earlier, area.held = 0, area.kept & union(other.kept for other in areas if other is not area)


class OtherRegionIsNotOutside(AnswerClaim):
    """The points of another area's region belong to neither side."""

    @staticmethod
    def hold(areas):
        AnswerClaim.hold(areas)
        for area in areas:
            area.outside &= ~union(other.region for other in areas)
            area.edge = area.region & area.grid.beside(area.outside)


class PastIsNotCompared(AnswerClaim):
    """Earlier positions bar nothing."""

    def past_with(self, points):
        return []


class DeathWithAnyPast(DeathClaim):
    """Earlier positions bar no move of the killer's."""

    def compare_with_past(self, state, after):
        pass


class DeathAfterPass(DeathClaim):
    """The other side may have the next turn after a pass, so that its own pass ends the game."""

    def may_begin(self):
        return not self.moves_first


class DeathWithoutPasses(DeathClaim):
    """The other side's pass is not asked."""

    asks_passes = False


class NumbersNeedNotFall(DeathClaim):
    """A reply may lead to any entry, so that the killer may go round in a circle."""

    has_falling_numbers = False

    def judge_entry(self, words):
        if not self.entries:
            texts = [line.split(" ")[1] for line in self.claim.lines if line.startswith("entry ")]
            self.entries = [self.area.state_of(text) for text in texts]
        super().judge_entry(words)
        self.entries.pop()  # it was there already


def judge_with(kind):
    """A judge of claims by this kind of areas, or of deaths."""
    if issubclass(kind, AnswerClaim):
        return kind
    part = "area" if issubclass(kind, Area) else "death"
    return type(kind.__name__, (AnswerClaim,), {"__doc__": kind.__doc__, part: kind})


# The rules that are left out, each with the kind of claims that may show it, None where any may, the points of their regions, and
# the rows of their boards where these are not 3 to 5.
KINDS = {
    OutsideIsNoAnchor: (None, None),
    LibertyOutsideCounts: (None, None),
    SuicideIsNotAsked: (None, None),
    CoverWithFewerStones: (LIFE, None),
    CoverWithMoreStones: (LIFE, None),
    EyeReachesOutside: (LIFE, None),
    OneEyeIsEnough: (LIFE, None),
    AnyAreaHolds: (TWO_AREAS, None),
    NothingHasToBeGiven: (TWO_AREAS, None),
    OtherRegionIsNotOutside: (TWO_AREAS, None),
    PastIsNotCompared: (LIFE, None),
    UnsureLoss: (DEATH, 5),
    OwnStonesTaken: (DEATH, 8),
    DeathWithAnyPast: (DEATH, 5),
    DeathWithoutPasses: (DEATH, 5),
    NumbersNeedNotFall: (DEATH, 6, [3]),
    DeathAfterPass: (DEATH, 5),
}
JUDGES = {judge_with(rule): made for rule, made in KINDS.items()}


def without(fault):
    """A judge that asks everything but this."""

    class Without(AnswerClaim):
        def demand(self, holds, said="C01 malformed"):
            super().demand(holds or said.startswith(fault), said)

    return Without
