"""The words of headings, in English, German, French, Spanish and Italian, and as simulators and books write them."""
from __future__ import annotations

import enum
import unicodedata
from functools import lru_cache


class Heading(enum.Enum):
    """A column of a table. The words are those that name it, in small letters, without blanks, accents and marks."""

    KIND = ('kind type streamtype hotcold hotorcold art typ tipo nature chaudfroid caldofreddo calientefrio heisskalt '
            'warmkalt side condition')
    NAME = ('name stream streams streamname strom strome bezeichnung stoffstrom flux courant nom corriente nombre '
            'corrente flusso nome utility utilities utilite utilites servicio servicios utilidad processstream '
            'hotstream hotstreams coldstream coldstreams hotutility hotutilities coldutility coldutilities '
            'heizmedium kuhlmedium '
            'heizmittel kuhlmittel fluxchauds fluxfroids courantschauds courantsfroids utilitechaude utilitefroide '
            'corrientescalientes corrientesfrias correnticalde correntifredde heissestrome warmestrome kaltestrome '
            'designation denominacion denominazione streamidentification inletstream feedstream sigla kurzzeichen '
            'kennzeichen')
    NUMBER = 'no nr n num number id tag repere streamno streamnumber streamid numero nummer nro pos'
    SUPPLY = ('supply supplied ts tin in inlet level t temperature temp temperatur temperatura from start starting '
              'initial source entry entrance eintritt eintritts ein eingang eingangs anfang anfangs vorlauf zulauf '
              'entree '
              'initiale depart entrada inicial suministro ingresso iniziale entrata partenza niveau '
              'starttemperatur niveltermico tein ent entr eintr anf ini iniz init sup entering ewt feedtemperature '
              'feedtemp feedt')
    TARGET = ('target tt tout out outlet to end ending final exit austritt austritts aus ausgang ausgangs ende ziel '
              'rucklauf ablauf sortie finale cible arrivee salida objetivo uscita obiettivo arrivo taus austr fin sal '
              'sort usc targ leaving lwt producttemperature producttemp productt')
    CP = ('cp mcp fcp wcp mdotcp mxcp gcp heatcapacityflow heatcapacityflowrate heatcapacityrate heatcapacity flowcp '
          'warmekapazitatsstrom kapazitatsstrom warmekapazitatsflussstrom debitcalorifique capacitecalorifique '
          'debitdecapacitethermique capacitethermique debitdecapacite capacidadcalorifica capacidadtermica flujocp '
          'capacitatermica portatatermica capacitatermicadiflusso flussodicapacitatermica heatflowcapacity '
          'capacityflowrate thermalcapacityflow flujodecapacidadcalorifica warmekapstrom warmekapazitatsstr')
    LOAD = ('load heat duty q dh deltah enthalpy enthalpychange heatload heatduty heatflow power leistung warmestrom '
            'warmeleistung warmelast warme warmemenge warmebedarf enthalpiestrom enthalpie puissance chargethermique '
            'puissancethermique fluxthermique chaleur charge carga cargatermica calor potencia potenciatermica '
            'entalpia carico caricotermico calore potenza potenzatermica heatcontent heatrequirement heatavailable '
            'enthalpyflow '
            'thermalload thermalduty thermalpower heatpower qdot flussotermico flujodecalor htduty qavailable')
    CONTRIBUTION = ('contribution dtcont dtcontribution dtmin2 deltatmin2 deltatcont deltatcontribution dt2 '
                    'dtmincontribution dtmincont dtmincontrib dtmincontr dtcontrib dtcontr')
    LEAST = 'least minimum min leastload minload leastheat minheat minimumload minduty'
    MOST = ('most maximum max mostload maxload mostheat maxheat maximumload maxduty available availability maxleistung '
            'maximalleistung verfugbar')
    PRICE = ('price cost unitcost unitprice preis kosten prix cout precio coste costo prezzo costindex utilitycost '
             'annualcost specificcost costperunit tarif')
    FILM = ('htc film filmcoefficient filmheattransfercoefficient heattransfercoefficient alpha filmcoeff filmhtc '
            'warmeubergangskoeffizient warmeubergang coefficientdefilm coefficientdechange coeficientedepelicula '
            'coefficientedifilm coefficientediscambio')
    OVERALL = ('overallcoefficient uvalue overallheattransfercoefficient kwert kvalue uwert '
               'warmedurchgangskoeffizient overallhtc')
    MASS = ('mdot mass massflow massflowrate flowrate flow massrate massenstrom mengenstrom durchfluss menge debit '
            'debitmassique caudal caudalmasico portata portatamassica molarflow molarflowrate molflow rate '
            'totalrate')
    SPECIFIC = ('specificheat specificheatcapacity effectivecp masscp spezifischewarmekapazitat spezifischewarme '
                'spezwarmekapazitat spezwarme chaleurspecifique chaleurmassique calorespecifico calorespecifico '
                'capacidadcalorificaespecifica massheatcapacity meancp averagecp cs calorespec calorspec '
                'capacitatermicaspecifica')
    LATENT = ('latentheat heatofvaporization heatofvaporisation heatofcondensation latent verdampfungsenthalpie '
              'verdampfungswarme kondensationsenthalpie kondensationswarme chaleurlatente calorlatente calorelatente '
              'enthalpyofvaporization enthalpyofvaporisation enthalpyofcondensation')
    PRESSURE = 'pressure druck pression presion pressione'


MEANINGS: dict[str, Heading] = {word: heading for heading in Heading for word in heading.value.split()}
# Words that say nothing beside a heading: `Stream supply temperature`, `Température d'entrée`, `T in`.
FILLING = frozenset('stream streams process of the de d di del della dell du des la le el il lo l der die das a value '
                    'strom stromes flux corriente corrente total calculated calc added removed '
                    'exchanged transferred released required absorbed net'.split())
# Headings that speak of another stream than that of the row, as simulators name what leaves an exchanger.
OF_OTHERS = frozenset('outletstream outstream streamout productstream prodstream'.split())
WARM = frozenset('t temp temperature temperatur temperatura temperatures'.split())
WARMED = frozenset((Heading.SUPPLY, Heading.TARGET))
# Symbols of one letter are a heading by their unit alone: `C (kW/K)`, `h (W/m2K)`, `H (kW)`.
SYMBOLS = {'c': (Heading.CP,), 'h': (Heading.FILM, Heading.LOAD), 'w': (Heading.CP, Heading.MASS),
           'k': (Heading.OVERALL,), 'g': (Heading.MASS,), 'f': (Heading.MASS, Heading.CP),
           'p': (Heading.PRESSURE, Heading.LOAD), 'm': (Heading.MASS,), 'u': (Heading.OVERALL,), 'r': (Heading.LATENT,)}
# Headings that are one thing in one language and another in the next: their partner says which.
PAIRS: dict[tuple[str, str], tuple[Heading, Heading]] = {
    (first, second): (Heading.SUPPLY, Heading.TARGET)
    for first, second in (('te', 'ts'), ('te', 'ta'), ('t1', 't2'), ('ti', 'tf'), ('ti', 'to'), ('ti', 'tu'),
                          ('tini', 'tfin'), ('tv', 'tr'), ('tvl', 'trl'), ('vl', 'rl'))}
# Pairs that may also be two other things, or the other way round, unless a stream says which way it runs.
OPEN_PAIRS = (('te', 'ta'), ('t1', 't2'))
# Of how many words a heading is at most, and how many signs of a text are looked at.
LONGEST_WORDS, LONGEST_TEXT = 8, 400


def squeezed(text: str) -> str:
    """A heading in small letters and digits alone; accents and marks are left out, letters of other scripts stay."""
    return ''.join(words(text))


def words(text: str) -> list[str]:
    """The words of a heading or a title in small letters, without accents; of a long text those of its beginning."""
    return list(words_of(text[:LONGEST_TEXT]))


@lru_cache(maxsize=4096)
def words_of(text: str) -> tuple[str, ...]:
    plain = unicodedata.normalize('NFKD', text.replace('Δ', 'd').replace('∆', 'd').replace('ß', 'ss')
                                  .replace('°', ' ').replace('·', ' ')).lower().replace('θ', 't')
    letters = ''.join(sign if sign.isalnum() else '' if unicodedata.combining(sign) else ' ' for sign in plain)
    return tuple(letters.split())


@lru_cache(maxsize=4096)
def meaning(text: str) -> Heading | None:
    """What the words of a heading mean; None where they mean nothing, or two things."""
    parts = words(text)
    known = MEANINGS.get(''.join(parts))
    if known or not parts or len(parts) > LONGEST_WORDS or ''.join(parts) in OF_OTHERS:
        return known
    found = covering(tuple(parts)) - {None}
    return next(iter(found)) if len(found) == 1 else None


def covering(parts: tuple[str, ...]) -> frozenset[Heading | None]:
    """The headings that all of these words together may name, each phrase of them saying the same, or nothing."""
    reached: list[set[Heading | None]] = [set() for _ in range(len(parts) + 1)]
    reached[0].add(None)
    for begin in range(len(parts)):
        for end in range(begin + 1, len(parts) + 1):
            phrase = ''.join(parts[begin:end])
            heading = phrase_of(phrase)
            if heading:
                reached[end] |= {heading for before in reached[begin] if before in (None, heading)}
            if phrase in FILLING:
                reached[end] |= reached[begin]
            if phrase in WARM:
                reached[end] |= {before for before in reached[begin] if before is None or before in WARMED}
            reached[end] |= reached[begin] & set(SYMBOLS.get(phrase, ()))
    return frozenset(reached[-1])


def phrase_of(phrase: str) -> Heading | None:
    """What one phrase means; of a temperature also with a `t` or `temp` before or after it: `tsupply`, `inlettemp`."""
    if phrase in WARM or phrase in FILLING:
        return None
    found = MEANINGS.get(phrase)
    if found:
        return found
    for word in WARM:
        for rest in (phrase.removeprefix(word), phrase.removesuffix(word)):
            heading = MEANINGS.get(rest) if rest != phrase and len(rest) > 1 else None
            if heading in WARMED:
                return heading
    return None
