"""What words say of the rows that they stand with: hot or cold, streams or utilities. They stand in a cell, in a line
above rows, in the heading of the names, or are the name of a sheet."""
from __future__ import annotations

import re
from collections.abc import Iterable
from dataclasses import dataclass, replace

from ..formats.case import Side
from .vocabulary import words

HOT = frozenset('hot warm warme warmer heiss heisse heisser heissen chaud chauds chaude chaudes caliente calientes '
                'caldo calda caldi calde'.split())
COLD = frozenset('cold kalt kalte kalter kalten froid froids froide froides frio fria frios frias freddo fredda freddi '
                 'fredde'.split())
UTILITY = frozenset('utility utilities utilite utilites utilidad utilidades servicio servicios auxiliar auxiliares '
                    'servizio servizi ausiliari ausiliario media medium betriebsmittel hilfsmittel hilfsmedium '
                    'hilfsmedien energietrager'.split())
HEATING = frozenset('heating chauffage calentamiento riscaldamento'.split())
COOLING = frozenset('cooling refroidissement enfriamiento raffreddamento'.split())
HEATERS = frozenset('heater hu heizmittel heizmedium heizmedien'.split())
COOLERS = frozenset('cooler cu kuhlmittel kuhlmedium kuhlmedien'.split())
STREAMS = frozenset('stream streams process processes side sides strom strome stoffstrom stoffstrome prozess '
                    'prozessstrome seite flux courant courants corriente corrientes corrente correnti flusso flussi '
                    'fluid fluids fluide fluides fluido fluidos fluidi proceso procesos processo processi '
                    'procede'.split())
FILLING = frozenset('and the of data table tab list section part und die der et les des de y las los e le i del '
                    'dei delle'.split())
# `Streams and utilities` says nothing of the rows below.
JOINING = frozenset('and und et y e'.split())
# A number or a letter before a title: `B. Utilities`, `Table 2`, `II`.
COUNTED = re.compile(r'[0-9]+|[a-z]|[ivx]+')
# A title with other words around it may speak of utilities, and may not.
DOUBTFUL = re.compile(r'(?!.*\b(?:no|not|without|ohne|keine|excluding|process)\b)(?:\S+\s+){0,3}(?:utilit(?:y|ies)|'
                      r'(?:heating|cooling)\s+media|heaters|coolers|(?:heiz|kühl|hilfs|betriebs)mittel|energieträger)'
                      r'(?:\W+\S+){0,2}\W*', re.I)
# A table of these is none of streams, also where it has temperatures.
EQUIPMENT = frozenset('exchanger exchangers hx equipment apparatus apparat apparate unit units item items pump vessel '
                      'column warmeubertrager warmetauscher warmeaustauscher echangeur echangeurs intercambiador '
                      'intercambiadores scambiatore scambiatori appareil equipo apparecchiatura'.split())
# Names of utilities that give heat, or take it.
GIVING = re.compile(r'steam|^st[0-9]*$|^[hml]ps$|dampf|vapeur|vapore?\b|furnace|fired|flue|rauchgas|\bfum|hot\s*oil|'
                    r'thermal\s*oil|thermo[oö]l|hot\s*water|hei(?:ß|ss)|four\b|horno|forno|boiler|kessel', re.I)
TAKING = re.compile(r'cooling|\bc\.?w\.?[0-9]*\b|\bair\b|brine|sole\b|chill|refrig|kühl|kuehl|kalt|refroid|glac|'
                    r'enfriam|raffredd|river|sea\s*water|\bluft\b|glycol|\baria\b|\baire\b|cold', re.I)
# What is called so, and has neither a CP nor a duty, is a utility.
UTILITY_NAME = re.compile(r'(?:[hmlvi]p[\s-]+|(?:very[\s-]+)?(?:high|medium|low)[\s-]*(?:pressure)?[\s-]+|'
                          r'saturated\s+)?'
                          r'steam(?:[\s,(]*[0-9][0-9.,]*\s*(?:bar|psi|kpa|mpa|atm|kg/cm)[a-z0-9²]*\)?)?|[hml]ps|'
                          r'cooling\s+water|c\.?\s?w\.?[0-9]?|chilled\s+water|dampf|heizdampf|kühlwasser|vapeur|'
                          r'eau\s+de\s+refroidissement|vapor\s+de\s+agua|agua\s+de\s+(?:enfriamiento|refrigeración)|'
                          r'vapore|acqua\s+di\s+raffreddamento', re.I)
RAISED = re.compile(r'rais|gener|bfw|boiler\s*feed|feed\s*water|erzeug|produ', re.I)


@dataclass(frozen=True)
class Section:
    """Rows of one side, or utilities, or both; `doubtful` where it may be utilities. With the title and its row."""

    side: Side | None = None
    utilities: bool = False
    doubtful: bool = False
    text: str = ''
    row: int = 0

    @property
    def kind(self) -> str:
        """The kind of a row in the words of a case; `utility` where its side is open, empty where it is a stream by its
        numbers."""
        return kind_word(self.side, self.utilities)

    def at(self, row: int) -> Section:
        return replace(self, row=row)


def is_equipment(title: str) -> bool:
    """Whether a heading of names speaks of exchangers or other equipment, and of no streams."""
    return any(part in EQUIPMENT for part in words(title))


def kind_word(side: Side | None, utility: bool) -> str:
    if not utility:
        return side.value if side else ''
    return {Side.HOT: 'heater', Side.COLD: 'cooler', None: 'utility'}[side]


def saying(parts: Iterable[str]) -> tuple[Side | None, bool, bool] | None:
    """The side that words say, whether they say utilities, and whether they say streams; None where another word
    stands among them, or both sides without utilities."""
    hot = cold = utility = streams = False
    for part in parts:
        hot |= part in HOT or part in HEATING or part in HEATERS
        cold |= part in COLD or part in COOLING or part in COOLERS
        utility |= part in UTILITY or part in HEATERS or part in COOLERS
        streams |= part in STREAMS
        if not any(part in group for group in (HOT, COLD, HEATING, COOLING, HEATERS, COOLERS, UTILITY, STREAMS,
                                               FILLING)) and not COUNTED.fullmatch(part):
            return None
    if hot and cold and not utility:
        return None
    side = None if hot == cold else Side.HOT if hot else Side.COLD
    return side, utility, streams


def section_of(text: str) -> Section | None:
    """What a title says of the rows below it; None where it says nothing of them."""
    if len(text) > 200:
        return None
    if to_be(text):
        return Section(to_be(text), text=text)
    for title in (text, re.sub(r'[(\[].*', '', text)):
        parts = words(title)
        found = saying(parts) if parts else None
        heating = set(parts) & (HEATING | COOLING)
        both = found and found[1] and found[2] and set(parts) & JOINING
        if found and (found[0] or found[1]) and not both and not (heating and not found[1]):
            return Section(found[0], found[1], text=text)
    return Section(doubtful=True, text=text) if DOUBTFUL.fullmatch(text) else None


def to_be(text: str) -> Side | None:
    """`Streams to be heated` are cold ones."""
    parts = words(text)
    if not set(parts) <= STREAMS | FILLING | {'to', 'be', 'heated', 'cooled', 'down', 'up'} or 'be' not in parts:
        return None
    return Side.COLD if 'heated' in parts and 'cooled' not in parts else Side.HOT if 'cooled' in parts else None


WHOLE = {'h': 'hot', 'hotstream': 'hot', 'hei': 'hot', 'c': 'cold', 'coldstream': 'cold',
         'contribution': 'contribution', 'forbid': 'forbid', 'forbidden': 'forbid'}


def kind_of(text: str) -> str | None:
    """What a cell of the column of kinds says: hot, cold, heater, cooler, utility, contribution, forbid, or nothing of
    a process stream; None where it is none of these."""
    parts = words(text)
    found = WHOLE.get(''.join(parts))
    if found:
        return found
    said = saying(parts) if parts and not any(COUNTED.fullmatch(part) for part in parts) else None
    if said is None or set(parts) & (HEATING | COOLING) and not said[1] or not any(said):
        return None
    return kind_word(said[0], said[1])


def kind_of_name(name: str) -> str:
    """The kind of a utility that is called so, as `Hot utility` or `CU 2`; empty where the name says none."""
    parts = [part for part in words(re.sub(r'[0-9]+', ' ', name)) if part]
    said = saying(parts) if parts and set(parts) - FILLING else None
    return kind_word(said[0], True) if said and said[1] else ''


def side_of_utility(name: str) -> Side | None:
    """Whether a utility of this name gives heat or takes it; None where the name may be either."""
    giving = GIVING.search(name) is not None and not RAISED.search(name)
    taking = TAKING.search(name) is not None
    if giving == taking:
        return None
    return Side.HOT if giving else Side.COLD
