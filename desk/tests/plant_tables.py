"""Tables as books, simulators and plants have them. Targets that are called published are those of the books, from
memory; the others were worked out by hand."""
from __future__ import annotations

import io
from dataclasses import dataclass

import openpyxl
from tabled import saved, workbook

Rows = list[list[object]]


@dataclass(frozen=True)
class PlantTable:
    """A table, its targets in kW, and by how much roundings may take them away."""

    content: str | bytes
    hot: float
    cold: float
    difference: str | None = '10 K'
    off: float = 0


SMITH = '''Table 16.2: heat exchange stream data;;;;;
Stream;Type;Supply temperature TS (°C);Target temperature TT (°C);ΔH (MW);Heat capacity flowrate CP (MW·K⁻¹)
1. Reactor 1 feed;Cold;20;180;32,0;0,2
2. Reactor 1 product;Hot;250;40;-31,5;0,15
3. Reactor 2 feed;Cold;140;230;27,0;0,3
4. Reactor 2 product;Hot;200;80;-30,0;0,25
'''
HYSYS = '''Name;Inlet T [C];Outlet T [C];MCp [kJ/C-h];Enthalpy [kJ/h];Segm.;HTC [kJ/h-m2-C];Flowrate [kg/h];\
Effective Cp [kJ/kg-C];DT Cont. [C];Clean/dirty
H1;180,0;80,0;72000;7200000;;720;;;Global;
H2;130,0;40,0;144000;12960000;;720;;;Global;
C1;60,0;100,0;288000;11520000;;720;;;Global;
C2;30,0;120,0;129600;11664000;;720;;;Global;
'''
ASPEN = '''Stream Name,,Inlet Temp.,Outlet Temp.,Heat Duty,Comments
,,C,C,Gcal/hr,
S-101 to S-102,,170,60,0.283748,product
S-103 to S-104,,150,30,0.154771,
S-201 to S-202,,20,135,0.197763,feed
S-203 to S-204,,80,140,0.206363,
'''
KEMP: Rows = [['Four-stream problem'], [], ['Hot streams'],
              ['Stream', 'CP (kW/K)', 'Initial temperature (°C)', 'Final temperature (°C)', 'Heat load (kW)'],
              ['2', 3, 170, 60, 330], ['4', 1.5, 150, 30, 180], [None, None, None, 'Total', 510], [], ['Cold streams'],
              ['Stream', 'CP (kW/K)', 'Initial temperature (°C)', 'Final temperature (°C)', 'Heat load (kW)'],
              ['1', 2, 20, 135, 230], ['3', 4, 80, 140, 240], [None, None, None, 'Total', 470]]
LINNHOFF = '''Hot streams;;;;;Cold streams;;;
No.;Ts (°C);Tt (°C);CP (kW/°C);;No.;Ts (°C);Tt (°C);CP (kW/°C)
2;170;60;3;;1;20;135;2
4;150;30;1.5;;3;80;140;4
'''
SEIDER = '''Stream,Ts (°F),Tt (°F),C (Btu/hr·°F),Q (Btu/hr)
H1,260,160,30000,3000000
H2,250,130,15000,1800000
C1,120,235,20000,2300000
C2,180,240,40000,2400000
'''
SHENOY = '''Stream,Supply temp. (°C),Target temp. (°C),MCp (kW/°C),h (kW/m2 °C),Cost ($/kW-yr)
H1,175,45,10,0.2,
H2,125,65,40,0.2,
C1,20,155,20,0.2,
C2,40,112,15,0.2,
Hot utility,180,179,,0.2,120
Cold utility,15,25,,0.2,10
'''
TOWLER: Rows = [['Stream no.', 'Type', 'Heat capacity flow rate CP, kW/°C', 'Ts, °C', 'Tt, °C', 'Heat load, kW'],
                [1, 'hot', 3.0, 180, 60, 360], [2, 'hot', 1.0, 150, 30, 120], [3, 'cold', 2.0, 20, 135, 230],
                [4, 'cold', 4.5, 80, 140, 270]]
TURTON = '''Stream,Condition,Flowrate m (kg/s),Cp (kJ/kg°C),m Cp (kW/°C),Tin (°C),Tout (°C),Q available (kW)
1,Hot,10,0.3,3,170,60,330
2,Hot,2.5,0.6,1.5,150,30,180
3,Cold,4,0.5,2,20,135,-230
4,Cold,8,0.5,4,80,140,-240
'''
GERMAN = '''Werk Süd, Anlage 7: Stoffströme;;;;;
Nr.;Bezeichnung;T ein [°C];T aus [°C];Wärmekapazitätsstrom [kW/K];Wärmelast [kW]
1;Kolonne Kopf;170;60;3,0;330
2;Rauchgas;150;30;1,5;180
3;Einsatz;20;135;2,0;230
4;Rücklauf Trockner;80;140;4,0;240
Summe;;;;;980
Betriebsmittel;;;;;
;Dampf 10 bar;180;180;;
;Kühlwasser;15;25;;
'''
FRENCH = '''Flux chauds;;;
N°;T entrée (°C);T sortie (°C);Puissance (kW)
F1;170;60;330
F2;150;30;180
Flux froids;;;
N°;T entrée (°C);T sortie (°C);Puissance (kW)
F3;20;135;230
F4;80;140;240
'''
FRENCH_SYMBOLS = '''Désignation;Te (°C);Ts (°C);m.Cp (kW/K)
Fumées;170;60;3
Condensats;150;30;1,5
Eau de chaudière;20;135;2
Air de combustion;80;140;4
'''
SPANISH = '''Corriente;Tipo;Temperatura de entrada (°C);Temperatura de salida (°C);Capacidad calorífica (kW/°C);Q (t/h)
C1;fría;20;135;2,0;12
H2;caliente;170;60;3,0;9
C3;fría;80;140;4,0;30
H4;caliente;150;30;1,5;4
'''
ITALIAN = '''Corrente;Tipo;T ingresso (°C);T uscita (°C);Potenza termica (kW)
C1;fredda;20;135;230
H2;calda;170;60;330
C3;fredda;80;140;240
H4;calda;150;30;180
'''
LEE = '''# 4SP1 ;;;
temperatures in °F, duties in 10^3 Btu/h;;;
ΔTmin = 20 °F;;;
Stream;from;to;Duty
H1;320;200;2000
H2;480;280;5280
C1;140;320;2745,6
C2;240;500;3956,16
'''
BOOK = workbook([['Heat integration study'], ['Plant 7'], ['checked by A. B.']],
                Streams=[[None, None, None, None, None], [None, None, 'Temperature', None, 'MCp'],
                         [None, 'Stream', 'in', 'out', None], [None, None, '°C', '°C', 'kW/K'],
                         [None, 'H1', 170, 60, 3], [None, 'H2', 150, 30, 1.5], [None, 'C1', 20, 135, 2],
                         [None, 'C2', 80, 140, 4]],
                Utilities=[['Utility', 'Tin (°C)', 'Tout (°C)', 'Price (€/MWh)'], ['HP steam', 240, 239, 40],
                           ['Cooling water', 15, 25, 2]])
SIDEWAYS = """Stream data of unit 300;;;;
Stream;H1;H2;C1;C2
Supply temperature (°C);170;150;20;80
Target temperature (°C);60;30;135;140
Heat load (kW);330;180;230;240
"""
SIDEWAYS_BOOK = workbook([[None, 'H1', 'H2', 'C1', 'C2'], ['Ts [°F]', 338, 302, 68, 176],
                          ['Tt [°F]', 140, 86, 275, 284], ['CP [kW/K]', 3, 1.5, 2, 4]])
TWO_IN_A_ROW = """Hot stream;Tin (°C);Tout (°C);CP (kW/K);Cold stream;Tin (°C);Tout (°C);CP (kW/K)
H1;170;60;3;C1;20;135;2
H2;150;30;1.5;C2;80;140;4
"""
T1_T2 = """Stream;T1 (°C);T2 (°C);C (kW/°C)
H1;170;60;3
H2;150;30;1.5
C1;20;135;2
C2;80;140;4
"""
TE_TA = """Strom;TE in °C;TA in °C;W in kW/K
H1;170,0;60,0;3,0
H2;150,0;30,0;1,5
C1;20,0;135,0;2,0
C2;80,0;140,0;4,0
"""
THETA = """Strom;ϑ ein [°C];ϑ aus [°C];ṁ·cp [kW/K]
H1;170;60;3
H2;150;30;1,5
C1;20;135;2
C2;80;140;4
"""
STEAM_BY_MASS = """Stream;Kind;Tin (°C);Tout (°C);CP (kW/K);Flow (t/h);Latent heat (kJ/kg)
H1;;170;60;3;;
H2;;150;30;1.5;;
C1;;20;135;2;;
C2;;80;140;4;;
Reboiler;cold;120;120;;1.8;2000
"""
COMMAS = """Stream,Supply temperature (°C),Target temperature (°C),Heat capacity flow rate (kW/K),Heat load (kW)
H1,"170,0","60,0","3,0","330,0"
H2,"150,0","30,0","1,5","180,0"
C1,"20,0","135,0","2,0","230,0"
C2,"80,0","140,0","4,0","240,0"
"""
NOTES_BETWEEN = """Stream;Tin (°C);Tout (°C);CP (kW/K);Duty (kW)
H1;170;60;3;330
note: H1 is the effluent of the reactor;;;;
H2;150;30;1.5;180
Subtotal hot;;;;510
* fouls;;;;
C1;20;135;2;230
C2;80;140;4;240
Subtotal cold;;;;470
Net;;;;40
(1) design case;;;;
"""
LEGEND = """Stream;Ts;Tt;CP
H1;338;140;3
H2;302;86;1.5
C1;68;275;2
C2;176;284;4
;;;
Ts;supply temperature;°F;
Tt;target temperature;°F;
CP;heat capacity flow;kW/K;
"""
LEGEND_ABOVE = """Legend: T in °C, Q in kcal/h;;;
Stream;Tin;Tout;Q
H1;170;60;283748
H2;150;30;154772
C1;20;135;197764
C2;80;140;206363
"""
CONTINUED = """Table 3;;;
Stream;Tin, degC;Tout, degC;CP, kW/degC
H1;170;60;3
H2;150;30;1.5
Table 3 (continued);;;
Stream;Tin, degC;Tout, degC;CP, kW/degC
C1;20;135;2
C2;80;140;4
"""
SOURCES_AND_SINKS = """Stream;Type;Inlet Temperature;Outlet Temperature;Enthalpy change
;;C;C;kW
1;source;170;60;-330
2;source;150;30;-180
3;sink;20;135;230
4;sink;80;140;240
"""


def merged() -> bytes:
    """A workbook with merged headings, and with a merged word for the streams of each side."""
    book = openpyxl.load_workbook(io.BytesIO(workbook(
        [['Side', 'Stream', 'Temperature (°C)', None, 'CP (kW/K)'], [None, None, 'in', 'out', None],
         ['hot', 'H1', 170, 60, 3], [None, 'H2', 150, 30, 1.5], ['cold', 'C1', 20, 135, 2], [None, 'C2', 80, 140, 4]])))
    for cells in ('A1:A2', 'B1:B2', 'C1:D1', 'E1:E2', 'A3:A4', 'A5:A6'):
        book.active.merge_cells(cells)
    return saved(book)


def untitled(name: str, head: list[object]) -> bytes:
    """A workbook with the name that a spreadsheet gives its first sheet, and two sheets that are empty."""
    book = openpyxl.load_workbook(io.BytesIO(workbook([head, ['H1', 170, 60, 3], ['H2', 150, 30, 1.5],
                                                       ['C1', 20, 135, 2], ['C2', 80, 140, 4]])))
    book.active.title = f'{name}1'
    for number in (2, 3):
        book.create_sheet(f'{name}{number}')
    return saved(book)


FEUIL = untitled('Feuil', ['Flux', 'T entrée (°C)', 'T sortie (°C)', 'Débit calorifique (kW/°C)'])
TABELLE = untitled('Tabelle', ['Strom', 'Eintrittstemperatur in °C', 'Austrittstemperatur in °C',
                               'Wärmekapazitätsstrom in kW/K'])
TABLES = {
    'Smith, published': PlantTable(SMITH, 7500, 10_000),
    'Linnhoff and others, side by side, published': PlantTable(LINNHOFF, 20, 60),
    'Kemp, below each other, published': PlantTable(workbook(KEMP), 20, 60),
    'Seider, published': PlantTable(SEIDER, 146.5355, 175.8426, '10 °F', 3),
    'Shenoy, published': PlantTable(SHENOY, 605, 525, '20 K'),
    'Towler and Sinnott, published': PlantTable(workbook(TOWLER), 50, 30),
    'Turton, masses and specific heats': PlantTable(TURTON, 20, 60),
    'Lee and others, units in a title': PlantTable(LEE, 178.376, 347.869, None, 2),
    'HYSYS': PlantTable(HYSYS, 960, 120), 'Aspen, units in a row': PlantTable(ASPEN, 20, 60, '10 K', 1),
    'German': PlantTable(GERMAN, 20, 60), 'French': PlantTable(FRENCH, 20, 60),
    'French symbols': PlantTable(FRENCH_SYMBOLS, 20, 60), 'Spanish': PlantTable(SPANISH, 20, 60),
    'Italian': PlantTable(ITALIAN, 20, 60), 'workbook with a cover and utilities': PlantTable(BOOK, 20, 60),
    'on its side': PlantTable(SIDEWAYS, 20, 60), 'workbook on its side': PlantTable(SIDEWAYS_BOOK, 20, 60),
    'two streams in a row': PlantTable(TWO_IN_A_ROW, 20, 60), 'T1 and T2': PlantTable(T1_T2, 20, 60),
    'TE and TA': PlantTable(TE_TA, 20, 60), 'theta': PlantTable(THETA, 20, 60),
    'steam by its mass': PlantTable(STEAM_BY_MASS, 1020, 60), 'decimal commas': PlantTable(COMMAS, 20, 60),
    'notes and subtotals between': PlantTable(NOTES_BETWEEN, 20, 60), 'legend below': PlantTable(LEGEND, 20, 60),
    'legend above': PlantTable(LEGEND_ABOVE, 20, 60, '10 K', 1), 'continued': PlantTable(CONTINUED, 20, 60),
    'sources and sinks': PlantTable(SOURCES_AND_SINKS, 20, 60), 'merged cells': PlantTable(merged(), 20, 60),
    'Feuil1': PlantTable(FEUIL, 20, 60), 'Tabelle1': PlantTable(TABELLE, 20, 60)}
