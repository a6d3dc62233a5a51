"""More tables as books, simulators, plants and national sheets have them, which were taken, or refused for what an
engineer reads without a thought. Where nothing else is said it is the four-stream problem of Linnhoff and others
(published targets, from memory, 20 and 60 kW at 10 K)."""
from __future__ import annotations

from plant_tables import PlantTable, Rows
from tabled import workbook

# Targets of the four streams of Seider and others, from memory: 500,000 and 600,000 Btu/h at 10 °F.
SEIDER_HOT, SEIDER_COLD = 146.535556, 175.842667
# Douglas, Conceptual Design of Chemical Processes (1988): 70 and 60 (10^3 Btu/h) at 10 °F, from memory.
DOUGLAS = '''Stream No.,Condition,"FCp, Btu/(hr·°F)","Tin, °F","Tout, °F","Q available, 10^3 Btu/hr"
1,Hot,1000,250,120,130
2,Hot,4000,200,100,400
3,Cold,3000,90,150,-180
4,Cold,6000,130,190,-360
,,,,,-10
'''
HYSYS_HEATERS = '''Name,E-100,E-101,E-102,E-103
Feed Temperature [C],170.0,150.0,20.00,80.00
Product Temperature [C],60.00,30.00,135.0,140.0
Mass Flow [kg/h],5400,3600,4120,7200
Duty [kJ/h],1.188e+006,6.480e+005,8.280e+005,8.640e+005
'''
ASPEN_HEATERS = '''Name,B1,B2,B3,B4
Property method,RK-SOAVE,RK-SOAVE,RK-SOAVE,RK-SOAVE
Inlet temperature [C],170,150,20,80
Outlet temperature [C],60,30,135,140
Outlet pressure [bar],5,5,8,8
Calculated heat duty [kW],-330,-180,230,240
Calculated vapor fraction,0,0,0,0
'''
CHEMCAD = '''Equip. No.,1,2,3,4
Name,Cooler 1,Cooler 2,Preheater,Reheater
T In C,170,150,20,80
T Out C,60,30,135,140
Calc Ht Duty kW,-330,-180,230,240
'''
PRO_II_MILLIONS = '''HX ID,FEED STREAM,PROD STREAM,TEMP IN,TEMP OUT,DUTY,SERVICE
,,,DEG C,DEG C,M*KJ/HR,
E1,S1,S2,170.00,60.00,1.1880,HOT
E2,S3,S4,150.00,30.00,0.6480,HOT
E3,S5,S6,20.00,135.00,0.8280,COLD
E4,S7,S8,80.00,140.00,0.8640,COLD
'''
PRO_II_RATES = '''STREAM,RATE,CP,TEMP IN,TEMP OUT
,K*KG/HR,KJ/KG-C,C,C
S1,5.4,2.0,170,60
S3,3.6,1.5,150,30
S5,3.6,2.0,20,135
S7,7.2,2.0,80,140
'''
ENTERING = '''Tag,Service,Entering Temp (°F),Leaving Temp (°F),Load (MBH)
H-1,Cooling,260,160,3000
H-2,Cooling,250,130,1800
C-1,Heating,120,235,2300
C-2,Heating,180,240,2400
'''
MILLIONS = '''"All temperatures in degrees Fahrenheit, heat loads in million Btu per hour",,,
Stream,Supply temperature,Target temperature,Heat load
H1,260,160,3.0
H2,250,130,1.8
C1,120,235,2.3
C2,180,240,2.4
'''
THERMAL = '''Stream;Type;T_start [°C];T_end [°C];Q [kW_th]
H1;Source;170;60;330
H2;Source;150;30;180
C1;Sink;20;135;230
C2;Sink;80;140;240
'''
PRICES_IN_CELLS = '''Stream,Type,Tin (°C),Tout (°C),Duty (kW),Price
H1,hot,170,60,"3,300",
H2,hot,150,30,"1,800",
C1,cold,20,135,"2,300",
C2,cold,80,140,"2,400",
MP steam,hot utility,185,185,,$9.50/MMBtu
Cooling tower,cold utility,25,25,,$0.35/GJ
'''
KAP_STROM: Rows = [['Strom', 'T Ein', 'T Aus', 'Wärmekap.-Strom'], [None, '°C', '°C', 'kW/K'],
                   ['H1', '170,0', '60,0', '3,0'], ['H2', '150,0', '30,0', '1,5'], ['C1', '20,0', '135,0', '2,0'],
                   ['C2', '80,0', '140,0', '4,0']]
# Linnhoff and Flower's TC3, published: 107.5 and 40 kW at 20 K.
FOUR_SHEETS = workbook(
    [['Hot streams'], ['ID', 'Ts/°C', 'Tt/°C', 'CP/kW·K⁻¹'], ['1', 150, 60, 2], ['2', 90, 60, 8]],
    Cold=[['Cold streams'], ['ID', 'Ts/°C', 'Tt/°C', 'CP/kW·K⁻¹'], ['3', 20, 125, 2.5], ['4', 25, 100, 3]],
    Utilities=[['ID', 'Kind', 'Ts/°C', 'Tt/°C', 'Cost/€·MWh⁻¹'], ['Steam', 'hot', 160, 160, 30],
               ['Water', 'cold', 15, 20, 1]],
    Economics=[['Economic data'], ['Plant life', 5, 'yr'], ['Interest rate', 10, '%']])
# The published targets of these tables in their own units, to the last digit.
OWN_UNITS = {'Douglas, published': ('70', '60'), 'entering and leaving': ('500', '600'),
             'millions in a title': ('1/2', '3/5'), 'Rankine': ('1/2', '3/5'),
             'pounds an hour': ('500000', '600000')}
# Gundersen, A Process Integration Primer (2000): 1000 and 800 kW at 20 K, from memory.
PRIMER = '''Stream;Ts;Tt;mCp;ΔH;h
ID;°C;°C;kW/°C;kW;kW/m2°C
H1;270;160;18;1980;0.5
H2;220;60;22;3520;0.5
C1;50;210;20;3200;0.5
C2;160;210;50;2500;0.5
ST;250;250;(var);(var);2.5
CW;15;20;(var);(var);1.0
'''
# Yee and Grossmann (1990), whose utilities are S1 and W1.
LETTERS = '''Stream,TIN (K),TOUT (K),Fcp (kW K^-1),Cost ($ kW^-1 yr^-1)
H1,650,370,10,-
H2,590,370,20,-
C1,410,650,15,-
C2,353,500,13,-
S1,680,680,-,80
W1,300,320,-,15
'''
# El-Halwagi, Process Integration (2006): 2620 and 50 kW at 10 K, from memory.
QUESTIONS = '''Table 9.1 Stream data for the chemical process;;;;
Stream;Flow rate × specific heat (kW/K);Supply temperature (K);Target temperature (K);Enthalpy change (kW)
H1;10;520;330;1900
H2;5;380;300;400
C1;19;300;550;-4750
C2;2;320;380;-120
HU1;?;560;520;?
CU1;?;290;300;?
'''
UNISIM = '''"Object","Inlet Temperature","Outlet Temperature","Heat Flow","Type"
"","C","C","kW",""
"E-100","170.0000","60.0000","330.0000","Cooler"
"E-101","150.0000","30.0000","180.0000","Cooler"
"E-102","20.0000","135.0000","230.0000","Heater"
"E-103","80.0000","140.0000","240.0000","Heater"
'''
DWSIM = '''Object;Type;Inlet Temperature (C);Outlet Temperature (C);Heat Added/Removed (kW)
CL-001;Cooler;170;60;330
CL-002;Cooler;150;30;180
HT-001;Heater;20;135;230
HT-002;Heater;80;140;240
'''
LATENT = '''Stream\tType\tT1 (ºC)\tT2 (ºC)\tmCp (kW/K)\tHeat (kW)\th (kW/m2 K)
Hot 1\tSensible\t170\t60\t3\t330\t0.5
Hot 2\tSensible\t150\t30\t1.5\t180\t0.5
Hot 3\tLatent\t110\t110\t\t100\t1
Cold 1\tSensible\t20\t135\t2\t230\t0.5
Cold 2\tSensible\t80\t140\t4\t240\t0.5
Cold 3\tLatent\t120\t120\t\t150\t1
'''
RANKINE = '''Stream,Supply Temp (°R),Target Temp (°R),Heat Duty (MMBtu/hr)
H1,719.67,619.67,3.0
H2,709.67,589.67,1.8
C1,579.67,694.67,-2.3
C2,639.67,699.67,-2.4
'''
IN_BRACKETS = '''Stream,Ts (°C),Tt (°C),Enthalpy change (kW)
H1,170,60,(330)
H2,150,30,(180)
C1,20,135,230
C2,80,140,240
'''
BOILING = '''Stream,Type,Supply (°C),Target (°C),Heat load (kW)
Effluent,hot,170,60,330
Overhead,hot,150,30,180
Feed,cold,20,135,230
Recycle,cold,80,140,240
Reboiler,cold,120,boiling,100
Condenser,hot,95,condensing,150
'''
FOOTNOTES = '''Stream;Tin (°C);Tout (°C);Q (kW)
H1;170;60;330¹⁾
H2;150;30*;180
C1;20;135;230
C2;80;140;240²⁾
* limited by freezing
1) design case
2) average
'''
UNSIZED = '''Stream;Tin [°C];Tout [°C];CP [kW/K];h [W/m²K]
H1;160;93;8,79;500
H2;249;138;10,55;500
C1;60;160;7,62;500
C2;116;260;6,08;500
Steam;270;270;;3000
Cooling water;38;82;;1000
'''
FRENCH_TO_BE = '''Pincement : 10 °C;;;;;
Flux à refroidir;;;;;
Nom;Débit massique (kg/s);Cp (kJ/kg.K);T initiale (°C);T finale (°C);Puissance (kW)
Effluent;1,5;2;170;60;330
Tête;1;1,5;150;30;180
Flux à réchauffer;;;;;
Nom;Débit massique (kg/s);Cp (kJ/kg.K);T initiale (°C);T finale (°C);Puissance (kW)
Charge;1;2;20;135;230
Recyclage;2;2;80;140;240
Total;;;;;980
'''
TWO_DUTIES = '''Equipment,Service,Temp. in (°C),Temp. out (°C),Cooling duty (kW),Heating duty (kW)
E-101,Effluent cooler,170,60,330,
E-102,OVHD condenser,150,30,180,
E-103,Feed preheater,20,135,,230
E-104,Recycle heater,80,140,,240
Total,,,,510,470
'''
REQUIRED = '''Stream;Supply, °C;Target, °C;Heat available, kW;Heat required, kW
H1;170;60;330;-
H2;150;30;180;-
C1;20;135;0;230
C2;80;140;0;240
Sum;;;510;470
'''
CURVES: Rows = [['H1 (hot)', None, None, 'C1 (cold)', None], ['T (°C)', 'H (kW)', None, 'T (°C)', 'H (kW)'],
                [170, 510, None, 20, 0], [100, 300, None, 100, 160], [60, 0, None, 140, 400]]
HEAT_FLOWS = '''Heating curve of stream CRUDE (cold);;;;
Name;Temperature [C];Heat Flow [kW];Vapour Fraction;Pressure [kPa]
CRUDE;20,0;0,0;0,000;500
CRUDE;80,0;120,0;0,000;500
CRUDE;80,0;220,0;0,500;500
CRUDE;140,0;460,0;1,000;500
;;;;
Cooling curve of stream EFFLUENT;;;;
Name;Temperature [C];Heat Flow [kW];Vapour Fraction;Pressure [kPa]
EFFLUENT;170,0;330,0;0,000;500
EFFLUENT;60,0;0,0;0,000;500
'''
POUNDS = '''Stream,Flow (lb/hr),Cp (Btu/lb-°F),Inlet (°F),Outlet (°F)
H1,50000,0.6,260,160
H2,30000,0.5,250,130
C1,40000,0.5,120,235
C2,80000,0.5,180,240
'''
ENTHALPY_CHANGES = '''Stream;Flow (kg/s);T1 (°C);T2 (°C);Δh (kJ/kg);Type
H1;1.5;170;60;220;hot
H2;1.0;150;30;180;hot
C1;1.0;20;135;230;cold
C2;2.0;80;140;120;cold
'''
RELEASED = '''Table 2-1: Hot process streams,,,,
No.,Description,Inlet (°C),Outlet (°C),Heat released (kW)
H1,Effluent,170,60,330
H2,Overhead,150,30,180
,Total,,,510
,,,,
Table 2-2: Cold process streams,,,,
No.,Description,Inlet (°C),Outlet (°C),Heat required (kW)
C1,Feed,20,135,230
C2,Recycle,80,140,240
,Total,,,470
'''
EVAPORATOR = '''Stream;Kind;Supply (°C);Target (°C);CP (kW/K);Latent heat (kW);Remarks
Feed;cold;15;80;5,2;;
Effect 1;cold;80;80;;1200;boils
Vapour 1;hot;80;80;;1150;condenses
Condensate;hot;80;30;2,1;;
Product;hot;80;25;2,0;;
'''
COSTS_BELOW = '''Stream;Tin [°C];Tout [°C];CP [kW/K]
H1;160;93;8,79
H2;249;138;10,55
C1;60;160;7,62
C2;116;260;6,08
;;;
Annual operating hours;8500;h;
Interest rate;10;%;
Plant life;5;years;
'''
UNITS_ABOVE = '''T in K, CP in kW/K
Stream,T_supply,T_target,CP
C1,293.15,408.15,2
C2,353.15,413.15,4
H1,443.15,333.15,3
H2,423.15,303.15,1.5
'''
UNLIMITED = '''Stream;Kind;Supply (°C);Target (°C);Duty (kW);Max (kW);Price (€/MWh)
H1;hot;170;60;330;;
H2;hot;150;30;180;;
C1;cold;20;135;230;;
C2;cold;80;140;240;;
HP;heater;250;;;unlimited;35
CW;cooler;20;;;∞;1
'''
LETTERS_FRENCH = '''Flux;Type;Te (°C);Ts (°C);mCp (kW/K)
F1;C;170;60;3
F2;C;150;30;1,5
F3;F;20;135;2
F4;F;80;140;4
'''
LETTERS_GERMAN = '''Strom;Art;TE (°C);TA (°C);W (kW/K)
1;H;170;60;3
2;H;150;30;1,5
3;K;20;135;2
4;K;80;140;4
'''
FURTHER = {
    'Douglas, published': PlantTable(DOUGLAS, 20.514978, 17.584267, '10 °F', .5),
    'HYSYS, heaters side by side': PlantTable(HYSYS_HEATERS, 20, 60),
    'Aspen Plus, heaters': PlantTable(ASPEN_HEATERS, 20, 60), 'ChemCAD': PlantTable(CHEMCAD, 20, 60),
    'PRO/II, millions': PlantTable(PRO_II_MILLIONS, 20, 60), 'PRO/II, rates': PlantTable(PRO_II_RATES, 20, 60),
    'entering and leaving': PlantTable(ENTERING, SEIDER_HOT, SEIDER_COLD, '10 °F', 3),
    'millions in a title': PlantTable(MILLIONS, SEIDER_HOT, SEIDER_COLD, '10 °F', 3),
    'thermal kilowatts': PlantTable(THERMAL, 20, 60), 'prices in cells': PlantTable(PRICES_IN_CELLS, 200, 600),
    'German abbreviations': PlantTable(workbook(KAP_STROM), 20, 60),
    'TC3 on four sheets, published': PlantTable(FOUR_SHEETS, 107.5, 40, '20 K'),
    'Gundersen, published': PlantTable(PRIMER, 1000, 800, '20 K'),
    'S1 and W1': PlantTable(LETTERS, 450, 2139), 'El-Halwagi, published': PlantTable(QUESTIONS, 2620, 50),
    'UniSim': PlantTable(UNISIM, 20, 60), 'DWSIM': PlantTable(DWSIM, 20, 60),
    'HINT, latent': PlantTable(LATENT, 140, 130),
    'Rankine': PlantTable(RANKINE, SEIDER_HOT, SEIDER_COLD, '10 °F', 3),
    'brackets of accountants': PlantTable(IN_BRACKETS, 20, 60), 'boiling': PlantTable(BOILING, 112.5, 202.5),
    'footnotes': PlantTable(FOOTNOTES, 20, 60),
    '4SP1 with utilities, published': PlantTable(UNSIZED, 127.68, 250.14),
    'French, to be cooled and heated': PlantTable(FRENCH_TO_BE, 20, 60, None),
    'duties in two columns': PlantTable(TWO_DUTIES, 20, 60),
    'available and required': PlantTable(REQUIRED, 20, 60),
    'heating curves side by side': PlantTable(workbook(CURVES), 60, 170),
    'heating curves with heat flows': PlantTable(HEAT_FLOWS, 130, 0),
    'pounds an hour': PlantTable(POUNDS, SEIDER_HOT, SEIDER_COLD, '10 °F', 3),
    'changes of enthalpy': PlantTable(ENTHALPY_CHANGES, 20, 60), 'released and required': PlantTable(RELEASED, 20, 60),
    'evaporator': PlantTable(EVAPORATOR, 1252, 1079), 'costs below': PlantTable(COSTS_BELOW, 127.68, 250.14),
    'units above the headings': PlantTable(UNITS_ABOVE, 20, 60), 'unlimited utilities': PlantTable(UNLIMITED, 20, 60),
    'French letters': PlantTable(LETTERS_FRENCH, 20, 60), 'German letters': PlantTable(LETTERS_GERMAN, 20, 60)}
