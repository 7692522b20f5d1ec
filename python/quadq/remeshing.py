"""The whole of a remesh: the mesh made ready, cut into parts, remeshed, checked, put together and measured."""

from __future__ import annotations

import os
from dataclasses import replace
from decimal import Decimal
from fractions import Fraction
from pathlib import Path
from typing import Callable, Iterable, Optional, Union

import numpy as np

from . import mirror as mirroring
from .arrays import Array
from .attributes import map_of, maps_of
from .bringing import brought_over
from .carrier import Carrier
from .choosing import Chooser, Chosen
from .conversions import MeshLike, as_mesh
from .density import for_region, local_of, with_sizes
from .distance import distance_between
from .errors import WishError
from .features import ANGLE, mark_features
from .floors import Floors
from .groups import keeping_groups, with_meetings
from .local import NOWHERE, Local
from .losses import SHARP, dropped_of, lost_edges, lost_mirrors
from .mesh import NONE, Mesh
from .notices import counted
from .obj_writing import plain_text
from .parts import NO_MARKS, Part, Workshop, Written, keep, put_together, split
from .patches import patches_under
from .plain import written_mesh
from .program import AUTO, FIT, Program
from .reading import divided, refuse_other, refuse_polygons, told_of_old
from .refusal import NOT_QUAD, SYNTAX, Refusal
from .relaxing import relax
from .results import Counts, Report, Result
from .rounding import curved, rounded
from .scaling import factor_of
from .settings import GIVEN, Settings, as_length, as_scale_wish
from .subdivision import in_quads
from .symmetry import Image, SeamOpens, image_of, named_as_image, refuse_open_seam, refuse_worse, why_none

Tell = Callable[[str, int, int], None]
"""Is told the step, how many things are done, and how many there are."""


Share = Union[Fraction, float, str, None]
"""A part of something: `1/2`, or its value."""
AtPlaces = Union[Array, str, None]
"""What is wished at points or faces, or where that stands."""


def remesh(
    mesh: MeshLike, *, scale: Share = None, faces: Optional[int] = None, share: Share = None,
    edge: Union[Decimal, float, str, None] = None, within: Optional[float] = None,
    size: Union[Callable[[Array], Array], AtPlaces] = None, mode: str = "shape", density: AtPlaces = None,
    region: AtPlaces = None, floor: Union[int, str] = "auto", weight: str = "plain", sharp: Optional[float] = None,
    keep: Iterable[str] = (), corners: bool = True, coarse: bool = False, subdivide: bool = False,
    mirror: Optional[str] = None, symmetry: Optional[str] = None, round: bool = False, relax: int = 0,
    carry: bool = False, free_groups: bool = False, rescale: bool = False, jobs: int = 0,
    folder: Optional[Path] = None, timeout: Optional[float] = None, program: Optional[Program] = None,
    text: Optional[bytes] = None, tell: Tell = lambda step, done, total: None,
) -> Result:
    """The mesh remeshed part by part: a `Mesh`, a pair of points and faces, or one of another package. Each part was
    accepted by `check`, or by `map` where another command wrote it.

    `scale` is how long each edge of the patches is to be, as a part of its old length; or `faces` is how many faces the
    mesh is to have, `share` which part of those that it has, `edge` how long edges are to be, `size` how long they are
    to be at each point, or `within` how far the new mesh may be from the old one, in the unit of the mesh. A size is an
    array (points,), a function of places (points, 3), or where it stands. `sharp` and `keep` tell which edges stay.
    `density` is how many times denser faces are to be at each point (points,), or where that stands. `region` has the
    faces that alone are to change: (faces,) bool, their numbers, or a group; then a number of faces, a share, a scale
    or a length is wished of them. The other wishes are those of `Settings`. `text` is the OBJ text that the mesh was
    read from, if it is at hand: then the certificate is of it. `timeout` is how many seconds the program may take.
    Raises a `Refusal` that names the place, a `WishError` for wrong wishes, and a `MeshError` for arrays that are no
    mesh, or a text of another one.
    """
    settings = Settings(
        scale=_part(scale), faces=faces, share=_part(share), edge=None if edge is None else as_length(edge),
        within=within, size=_where(size), mode=mode, density=_where(density), region=_where(region), floor=floor,
        weight=weight, sharp=sharp, keep=tuple(keep), corners=corners, coarse=coarse, subdivide=subdivide,
        mirror=mirror, symmetry=symmetry, round=round, relax=relax, jobs=jobs, folder=folder, carry=carry,
        free_groups=free_groups, rescale=rescale)
    runner = (Program() if program is None else program).within(timeout)
    mesh = as_mesh(mesh)
    mesh.refuse_strange()
    if text is not None:
        refuse_other(mesh, text, runner)
    at_points = size(mesh.points) if callable(size) else size
    at_places = (None if it is None or isinstance(it, str) else np.asarray(it) for it in (density, at_points, region))
    return run(mesh, settings, runner, text, tell, Local(*at_places))


def _part(wish: Share) -> Optional[Fraction]:
    return None if wish is None else as_scale_wish(wish)


def _where(wish: object) -> Optional[str]:
    """What stands in settings for a wish at places that may be given."""
    return wish if wish is None or isinstance(wish, str) else GIVEN


def run(
    mesh: Mesh, settings: Settings, program: Program, text: Optional[bytes], tell: Tell, given: Local = NOWHERE
) -> Result:
    """`remesh` with settings that are made already, of a mesh that was read from the text. Meshes of small or great
    units are scaled for the program, and back."""
    if settings.needs_fit and not program.has_fit():
        raise WishError(f"{settings.in_words} want the command `{FIT}`, which this program does not have")
    local = local_of(mesh, settings, given)
    settings = settings.for_faces(mesh.face_count) if local.region is None else for_region(settings, mesh, local.region)
    if not mesh.face_count:
        raise Refusal(NOT_QUAD, "no faces")
    wrong = np.flatnonzero(~np.isfinite(mesh.points).all(axis=1))
    if len(wrong):
        raise Refusal(SYNTAX, f"vertex {wrong[0] + 1}: a coordinate is no number", (), wrong.tolist())
    settings = keeping_groups(settings, mesh, program)
    factor = factor_of(mesh, settings.rescale)
    if factor == 1:
        return _Work(mesh, settings.times(1.0), program, tell, local).result(text)
    scaled = mesh.changed(points=mesh.points * factor)
    return _Work(scaled, settings.times(factor), program, tell, local.times(factor)).result(None).times(1 / factor)


class _Work:
    """One mesh on its way."""

    def __init__(
        self, mesh: Mesh, settings: Settings, program: Program, tell: Tell, local: Local = NOWHERE
    ) -> None:
        self.mesh = mesh
        self.settings = settings
        self.given = self.local = local
        self.program = program
        self.tell = tell
        self.step = ""
        self.total = 0
        self.marks = ""
        """How many edges stay, and why."""
        self.sharp: Optional[Array] = None
        """The sharp edges of the mesh, if they are known."""
        self.ready = mesh
        """The mesh of quads: divided, where that was wished."""
        self.image: Optional[Image] = None
        """Its mirror image in itself, where its symmetry is kept."""
        self.said = ""
        """Why it is not."""
        self.shop = Workshop(program, settings.jobs or os.cpu_count() or 1, self._tell_parts)

    def _begin(self, step: str, total: int = 1) -> None:
        """Tells of a step that begins, with so many things to do."""
        self.step, self.total = step, total
        self.tell(step, 0, total)

    def _tell_parts(self, done: int) -> None:
        self.tell(self.step, done, self.total)

    def result(self, text: Optional[bytes]) -> Result:
        try:
            return self._result(text)
        except SeamOpens as opens:
            self.settings, self.said = replace(self.settings, symmetry="off"), str(opens)
            return self._result(text)
        except Refusal as said:
            if self.ready is self.mesh:
                raise
            raise told_of_old(said, self.mesh) from said

    def _result(self, text: Optional[bytes]) -> Result:
        self._begin("cutting into parts")
        parts = self._parts(text)
        chosen = Chooser(parts, self.settings, self.shop, self._begin, self.local, self._halves()).chosen()
        parts = chosen.parts
        if self.image is not None and self.settings.symmetry is None and chosen.reached.because:
            raise SeamOpens(f"two halves would have {chosen.reached.faces} faces: {chosen.reached.because}")
        self._begin("checking", len(parts))
        written = self.shop.judge(parts, chosen.texts, chosen.wish)
        if self.settings.folder is not None:
            keep(self.settings.folder, parts, written)
        meshes, moves = self._rounded(parts, written) if self.settings.round else self._relaxed(parts, written)
        new, carrier, over = self._put_together(parts, written, meshes)
        self._refuse_worse_halves(new)
        is_as_written = len(parts) == 1 and not (
            self._axis() is not None or self.settings.subdivide or moves or self.settings.carry or self.settings.round)
        symmetry = "" if self.image is None else mirroring.AXES[self.image.axis]
        report = replace(self._report(new, chosen, parts, written), moves=moves, symmetry=symmetry,
                         over_seams=0 if over is None else int(over.sum()))
        owners = None if self.ready is self.mesh else self.mesh.face_of_corner()
        text = written[0].text if is_as_written else None
        done = Result(new, report, text, tuple(parts), tuple(written), self.mesh, self.ready, self.program, owners,
                      carrier, over, self.image)
        return with_sizes(brought_over(done), self.given.size)

    def _parts(self, text: Optional[bytes]) -> list[Part]:
        mesh = self.mesh
        if self.settings.subdivide:
            ready, text = divided(mesh, self.program), None
            mesh = self.ready = ready
            self.local = self.given.divided(self.mesh)
        refuse_polygons(mesh)
        self._find_image(mesh)
        marks, axis = self._marks(mesh), self._axis()
        if axis is None:
            # `crease` would take the lines of the file as marks.
            return split(mesh, None if self.settings.is_creased and mesh.lines else text, marks)
        one, faces, points = mirroring.half(mesh, axis)
        at = np.minimum(np.searchsorted(points, marks), max(len(points) - 1, 0))
        at = at[np.all(points[at] == marks, axis=1)]
        parts = split(one, None, at[one.edges.numbers_of(at) != NONE])
        return [replace(it, faces=faces[it.faces], points=points[it.points]) for it in parts]

    def _refuse_worse_halves(self, new: Mesh) -> None:
        """Raises `SeamOpens` where no symmetry was wished and two halves are worse than the whole by one scale."""
        settings = self.settings
        if self.image is None or settings.symmetry is not None or settings.faces is None or settings.region is not None:
            return
        parts = split(self.ready, None, self._marks(self.ready))
        by_scale = replace(settings, mode="scale", density=None)
        tried = Chooser(parts, by_scale, self.shop, self._begin).chosen()
        refuse_worse(new, put_together(tried.parts, [written_mesh(it) for it in tried.texts]), self.ready,
                     settings.faces)

    def _find_image(self, mesh: Mesh) -> None:
        """Finds the mirror image of the mesh of quads in itself, where it is to stay so."""
        settings, self.image = self.settings, None
        is_wished = settings.symmetry is not None or (settings.is_by_shape and self.program.has_fit())
        if is_wished and settings.symmetry != "off" and settings.mirror is None:
            wished = settings.symmetry or "auto"
            self.image = image_of(mesh, wished, self.local)
            self.said = why_none(mesh, wished) if self.image is None else ""

    def _marks(self, mesh: Mesh) -> Array:
        """(marks, 2): the edges that are to stay, as pairs of points."""
        settings = self.settings
        if not settings.is_creased:
            return NO_MARKS
        found = mark_features(mesh, settings.sharp, kinds=settings.keep, corners=settings.corners,
                              rim=self.local.rim(mesh))
        if mesh.is_grouped and not settings.free_groups:
            found = with_meetings(mesh, found)
        self.marks = found.in_words()
        if settings.sharp == SHARP and self.ready is self.mesh:
            self.sharp = found.edges[found.reasons == ANGLE]
        return found.edges

    def _axis(self) -> Optional[int]:
        """Across which plane the mesh is mirrored."""
        if self.image is not None:
            return self.image.axis
        return None if self.settings.mirror is None else mirroring.AXES.index(self.settings.mirror)

    def _halves(self) -> int:
        return 1 if self._axis() is None else 2

    def _relaxed(self, parts: list[Part], written: list[Written]) -> tuple[list[Mesh], int]:
        """The new meshes, relaxed where that is wished, and how many moves that took."""
        times, moves = self.settings.relax, 0
        done: list[Mesh] = []
        if not times:
            return [it.mesh() for it in written], 0
        self._begin("relaxing", len(parts))
        for part, it in zip(parts, written):
            nodes = patches_under(part, it, self.program).nodes
            relaxed, more = relax(it.mesh(), part.mesh, nodes, times)
            done.append(relaxed)
            self._tell_parts(len(done))
            moves += more
        return done, moves

    def _rounded(self, parts: list[Part], written: list[Written]) -> tuple[list[Mesh], int]:
        """The new meshes with their points on the curved surface behind the old mesh, and no moves."""
        self._begin("rounding", len(parts))
        surface = curved(self.ready, self._marks(self.ready), self.settings.sharp)
        maps = maps_of(parts, written, self.shop)
        return [rounded(it.mesh(), surface, given.moved(part.points, part.faces), self._axis())
                for part, it, given in zip(parts, written, maps)], 0

    def _put_together(
        self, parts: list[Part], written: list[Written], meshes: list[Mesh]
    ) -> tuple[Mesh, Optional[Carrier], Optional[Array]]:
        """The new meshes side by side, what carries over to them, and which of their faces lie over seams of what was
        carried over."""
        new = put_together(parts, meshes)
        if not self.settings.carry:
            return self._with_names(self._whole(new), new, parts, meshes), None, None
        self._begin("carrying over", len(parts))
        given, axis = map_of(parts, written, self.shop), self._axis()
        if self.image is not None:
            given = given.with_image(self.image.points, self.image.darts, mirroring.sewn(new, self.image.axis))
            carrier = Carrier(self.mesh, self.ready, self._whole(new), given)
            whole, over = carrier.dressed()
            return whole, carrier, over
        carrier = Carrier(self.mesh, self.ready, new, given)
        half, over = carrier.dressed()
        whole = self._whole(half)
        if axis is not None:
            carrier = replace(carrier, new=whole, map=given.with_copy(mirroring.sewn(new, axis)))
        return whole, carrier, np.tile(over, self._halves())

    def _whole(self, new: Mesh) -> Mesh:
        """The new mesh, with its mirror image where that is wished: then the whole is read by the program once more."""
        axis = self._axis()
        if axis is None:
            return new
        whole = mirroring.with_image(new, axis)
        try:
            self.program.tidy(plain_text(whole))
        except Refusal as said:
            if self.image is not None:
                raise SeamOpens(f"a half with its mirror image is no manifold: {said.line}") from said
            raise Refusal(said.status, f"with its mirror image it is no manifold: {said.line}") from said
        if self.image is not None:
            refuse_open_seam(self.ready, whole)
        return whole

    def _with_names(self, whole: Mesh, half: Mesh, parts: list[Part], meshes: list[Mesh]) -> Mesh:
        """The whole mesh, of which the image has the names of its own half."""
        image = self.image
        if image is None or not self.ready.groups:
            return whole
        other = put_together([named_as_image(image, it, self.ready) for it in parts], meshes)
        words = [it for it in half.groups if it in other.groups]
        return replace(whole, groups={it: mirroring.both_names(half.groups[it], other.groups[it]) for it in words})

    def _dropped(self, parts: list[Part]) -> tuple[tuple[str, str], ...]:
        """What the old mesh had and the new one does not: kinds of notices, and their words."""
        gone = self.ready.face_count - sum(it.mesh.face_count for it in parts)
        found = dropped_of(self.mesh, self.settings)
        if self.said:
            found += (("asymmetric", f"the whole was remeshed, and not one half: {self.said}"),)
        if self.settings.mirror is not None and gone:
            found += (("mirror-half", f"{counted(gone, 'face')} beyond the mirror plane gave way to the image of the "
                       f"others, with what they carried; --symmetry {self.settings.mirror} keeps that of a mesh that "
                       "is its own mirror image"),)
        return found

    def _report(self, new: Mesh, chosen: Chosen, parts: list[Part], written: list[Written]) -> Report:
        self._begin("measuring")
        old, after = in_quads(self.mesh), Counts.of(new)
        floors = Floors.of([it.certified for it in written], self.settings.floor == AUTO)
        return Report(
            before=Counts.of(self.mesh),
            after=after,
            ready=self._halves() * sum(it.mesh.face_count for it in parts),
            wished=self.settings.faces,
            because=chosen.reached.because,
            scale=chosen.reached.scale,
            edge=self.settings.edge,
            command=chosen.wish.command,
            spacing=chosen.wish.spacing,
            within=self.settings.within,
            way=chosen.reached.way,
            strayed=chosen.reached.strayed,
            beyond=chosen.reached.beyond,
            marks=self.marks,
            floor=self.settings.floor,
            weight=self.settings.weight,
            parts=sum(it.count for it in parts),
            arcs=floors.arcs,
            arcs_at_floor=floors.short,
            arcs_raised=floors.raised,
            greatest_floor=floors.greatest,
            rounds=floors.rounds,
            deviation=_sum([it.verdict.deviation for it in written]),
            to_old=distance_between(new, old),
            to_new=distance_between(old, new),
            diagonal=float(np.linalg.norm(np.ptp(self.mesh.points[self.mesh.used], axis=0))),
            sharp=lost_edges(old, new, after.mean_edge, self.sharp),
            angle=self.settings.sharp,
            mirrors=lost_mirrors(old, new) if self.local.is_nowhere or self.image is not None else "",
            dropped=self._dropped(parts),
            is_round=self.settings.round,
        )


def _sum(deviations: list[Optional[int]]) -> Optional[int]:
    """Of all parts together, where each is known."""
    known = [it for it in deviations if it is not None]
    return sum(known) if len(known) == len(deviations) else None
