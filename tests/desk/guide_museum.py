"""The thesaurus of GUIDE.md, as its first sections make it."""

MUSEUM = """
{"do":"scheme","tag":"en","text":"Musical instruments"}
{"do":"concept","scheme":1,"tag":"en","text":"String instruments"}
{"do":"concept","scheme":1,"tag":"en","text":"Violins"}
{"do":"concept","scheme":1,"tag":"en","text":"Fiddles"}
{"do":"concept","scheme":1,"tag":"en","text":"Harps"}
{"do":"concept","scheme":1,"tag":"en","text":"Bows"}
{"do":"concept","scheme":1,"tag":"en","text":"Messiah Stradivarius"}
{"do":"addLabel","owner":2,"kind":"pref","tag":"de","text":"Saiteninstrumente"}
{"do":"addLabel","owner":4,"kind":"pref","tag":"de","text":"Fiedeln"}
{"do":"addLabel","owner":5,"kind":"pref","tag":"de","text":"Harfen"}
{"do":"addLabel","owner":4,"kind":"scope","tag":"en","text":"Of folk music and the Middle Ages."}
{"do":"link","kind":"broaderGeneric","a":3,"b":2}
{"do":"link","kind":"broaderGeneric","a":4,"b":2}
{"do":"link","kind":"broaderGeneric","a":5,"b":2}
{"do":"link","kind":"related","a":3,"b":4}
{"do":"post","key":"p-1","record":"Violin, Jacob Stainer, Absam 1668","concept":3}
{"do":"post","key":"p-2","record":"Violin, Mittenwald, about 1780","concept":3}
{"do":"post","key":"p-3","record":"Hardanger fiddle, Telemark 1860","concept":4}
{"do":"post","key":"p-4","record":"Fiddle, Dalarna, about 1800","concept":4}
"""
