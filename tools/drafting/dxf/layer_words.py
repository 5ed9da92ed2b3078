"""What the name of a layer or a linetype says that its lines are for: whole words, by languages.

Sources: ISO 128-2:2020 (names of the kinds of lines, in the national editions EN, DIN EN, NF EN, UNI EN, PN-EN, ČSN EN, MSZ EN ISO 128), ГОСТ
2.303-68, GB/T 4457.4-2002 and JIS B 0001 (the same); the layers of the templates that AutoCAD, BricsCAD, ZWCAD, QCAD and LibreCAD bring along
in these languages, and AutoCAD's acad.lin and acadiso.lin; the US National CAD Standard (HIDN, CNTR, DIMS, TTLB, NPLT); ISO 13567-2 for coded names.

A word with a star at its end or beginning is one that goes on there, as words are inflected and joined; several words in quotation marks stand in
this order. Chinese, Japanese and Korean words may stand anywhere, since nothing parts them. Accents and capitals don't matter.
"""
import enum
import functools
import re
import unicodedata
from typing import NamedTuple


class Role(enum.Enum):
    """What a name says of lines."""

    CUTTING = "cutting-plane lines"
    HATCH = "hatches"
    DIMENSION = "dimensions"
    TEXT = "texts"
    FRAME = "borders and title blocks"
    CENTRE = "centre lines"
    HIDDEN = "hidden lines"
    VISIBLE = "visible lines"


# The first role of which a word is in a name is what it says: what is no edge first, and centre lines (dash-dot) before hidden ones (dash).
WORDS: dict[Role, str] = {
    Role.CUTTING: """
        en: cutting* "section line*" "section plane*" sectionline* sectionplane*
        de: schnittlinie* schnittverlauf* schnittebene* "schnitt linie*" "schnitt verlauf*" "schnitt ebene*"
        fr: "coupe ligne*" "coupe line*" "plan* de coupe" "ligne* de coupe"
        it: "pian* di sezione" "line* di sezione"
        es, pt: "corte line*" "corte plane*" "plano* de corte" "linea* de corte" "linha* de corte"
        ru: "линии разреза" "линия разреза" "линии сечения" "линия сечения"
        zh, ja: 剖切线 剖切線 切断線
    """,
    Role.HATCH: """
        en: hatch* patt
        de: schraff* *schraffur*
        fr: hachur*
        it: retino* campitur*
        es, pt: sombread* rayado* hachura* tramado*
        nl: arcer*
        pl: kreskowani* szrafur*
        cs, sk: srafovan* srafy
        hu: vonalkaz* sraffoz*
        sv, da, no: skraffer* skraver* snittskraffer*
        tr: tarama*
        ru: штриховк*
        zh, ja, ko: 剖面线 剖面線 填充 ハッチング 해칭
    """,
    Role.DIMENSION: """
        en: dim dims dimension*
        de: bemass* *bemassung* masslinie* masse masskette*
        fr: cote cotes cotation*
        it: quota quote quotatur*
        es, pt: cota cotas acotacion* acotado* cotagem dimensoes
        nl: maat maten maatvoering* bemating* maatlijn*
        pl: wymiar*
        cs, sk: kota koty kotovan*
        hu: meret*
        sv, da, no, fi: matt mattsattning* mal malsatt* mitat mitoitus*
        tr: olcu*
        ru, uk: размер* розмір*
        el: διαστασ*
        zh, ja, ko: 标注 標註 尺寸 寸法 치수
    """,
    Role.FRAME: """
        en: border borders frame frames title* ttlb viewport* vport* defpoints nplt "no plot" "non plot*"
        de: rahmen* *rahmen schriftfeld* schriftkopf* titelblock* blattrand*
        fr: cadre* cartouche*
        it: cornice squadratura cartiglio riquadro
        es: marco cajetin* cartela rotulo recuadro
        pt: moldura* legenda margem
        nl: kader* titelblok*
        pl: ramka ramki tabelka*
        cs, sk: ramecek* ramcek* razitk* "popisove pole"
        hu: keret* szovegmezo*
        sv, da, no, fi: ritningsram* ramme tegningsramme* tittelfelt* namnruta kehys* otsikkotaulu*
        tr: cerceve* antet*
        ru, uk: рамк* штамп* "основная надпись"
        el: πλαισι* υπομνημ*
        he, ar: מסגרת إطار
        zh, ja, ko: 图框 圖框 标题栏 標題欄 図面枠 図枠 表題欄 도면틀 표제란
    """,
    Role.TEXT: """
        en: text texts txt note notes annot annotation* label labels
        de: texte beschrift* *beschriftung* anmerkung* hinweis*
        fr: textes
        it: testo testi nota
        es, pt: texto textos notas anotac*
        nl: tekst*
        pl: teksty opis opisy
        cs, sk: popis popisy popisk*
        hu: szoveg*
        sv, da, no, fi: tekster teksti*
        tr: yazi*
        ru, uk: текст* надпис*
        el: κειμεν*
        zh, ja, ko: 文字 文本 注释 注記 문자 텍스트
    """,
    Role.CENTRE: """
        en: center* centre* cen cntr cntl cl axis axes dashdot* "dash dot*" "chain line*" chainline* phantom*
        de: mitte mitten mittellin* mittenlin* mittelachse* strichpunkt* "strich punkt*" achs achse achsen achslinie* symmetrielinie*
        fr: axe mixte* "trait mixte*"
        it: asse assi mezzeria mezzerie "tratto punto" "tratto e punto"
        es: eje ejes "trazo* y punto*" "trazo* punto*" "linea* de centro*"
        pt: eixo eixos "traco* ponto*" "traco* e ponto*" "linha* de centro*"
        nl: hartlijn* aslijn* middellijn* streeppunt* "streep punt*"
        pl: osie osiow* "linia osi" "linie osi"
        cs, sk: osa osy osi cerchovan* bodkociarkovan*
        hu: kozepvonal* tengely* pontvonal*
        sv, da, no, fi: centrumlinje* mittlinje* senterlinje* midtlinje* keskiviiv* keskilinj*
        tr: eksen* merkez*
        ru, uk: ось оси осев* центров* осьов* штрихпунктир* "штрих пунктир*"
        el: αξον* κεντρικ*
        zh, ja, ko: 中心线 中心線 点划线 点画线 點劃線 轴线 軸線 一点鎖線 二点鎖線 鎖線 想像線 중심선 일점쇄선 이점쇄선
    """,
    Role.HIDDEN: """
        en: hidden* hid hidn hidd obscured invisible* dashed* dash dashx "broken line*" "non visible" "not visible"
        de: verdeckt* unsichtbar* gestrichelt* strichliert* strichlinie* "nicht sichtbar*"
        fr: cache* interrompu* pointille* "non vu*"
        it: nascost* tratteggi* occult* invisibil* "non visibil*"
        es, pt: ocult* discontinu* trazos invisiv* tracejad* escondid* "no visible*"
        nl: verborgen onzichtbar* streeplijn* gestippeld* stippellijn*
        pl: niewidoczn* ukryt* przerywan* kreskow*
        cs, sk: neviditeln* zakryt* skryt* carkovan* ciarkovan*
        hu: rejtett* takart* eltakart* szaggatott* "nem lathato*"
        sv, da, no, fi: dold* skymd* streckad* skjult* stiplet* piiloviiv* piilolinj* katkoviiv*
        tr: gizli* gorunme* kesikli*
        ru, uk: невидим* скрыт* штриховая штриховые штриховой штриховых пунктир* прихован*
        el: κρυφ* διακεκομμεν* αορατ*
        zh, ja, ko: 虚线 虛線 隐藏 隱藏 不可见 不可見 隠れ線 かくれ線 カクレ線 隠線 破線 숨은선 은선 파선
    """,
    Role.VISIBLE: """
        en: visible* vis outline* object*
        de: sichtbar* koerperkante* körperkante* umriss*
        fr: vu vus vue vues visibles contour*
        it: vista visibil* contorn*
        es, pt: visivel visiveis contorno*
        nl: zichtbaar zichtbare
        pl: widoczn*
        cs, sk: viditeln*
        hu: lathato*
        sv, da, no, fi: synlig* nakyv*
        tr: gorunur* gorunen*
        ru, uk: видим* основная
        el: ορατ*
        zh, ja, ko: 可见 可見 轮廓 粗实线 外形線 실선 외형선
    """,
}
# Words of linetypes alone, of acad.lin and acadiso.lin; "border" and "divide" are drawn with dots, and on a layer BORDER stands a border.
LINETYPES: dict[Role, str] = {
    Role.CENTRE: "en: border borderx divide dividex centerx dashdotx phantomx",
    Role.HIDDEN: "en: hiddenx dashedx\nde: strich striche",
}
# AutoCAD's ISO and JIS linetypes: 02 and 03 are dashes, from 04 on dots come in.
NUMBERED = ((re.compile(r"iso_?(0[4-9]|1[0-5])w|jis_0[89]_", re.I), Role.CENTRE), (re.compile(r"iso_?0[23]w|jis_02_", re.I), Role.HIDDEN))
# A coded name of ISO 13567-2: two signs for who is responsible, six for the element (with a number or filled up), two for the presentation.
CODED = re.compile(r"[A-Z][A-Z0-9-](?=[A-Z0-9]{0,5}[0-9-])[A-Z0-9-]{6}(?P<presentation>[A-Z])-[A-Z0-9-]*")
PRESENTATIONS = {"T": Role.TEXT, "A": Role.TEXT, "R": Role.TEXT, "K": Role.TEXT, "D": Role.DIMENSION, "H": Role.HATCH, "J": Role.CUTTING,
                 "P": Role.FRAME, "B": Role.FRAME, "V": Role.FRAME, "I": Role.FRAME, "L": Role.FRAME}


class Said(NamedTuple):
    """What a name says, and by which of its words."""

    role: Role
    word: str


def plain(text: str) -> str:
    """A text in small letters without accents, its words parted by blanks: also where a small letter is followed by a capital or a digit."""
    text = re.sub(r"(?<=[^\W\d_])(?=\d)|(?<=\d)(?=[^\W\d_])", " ", re.sub(r"(?<=[a-zß-öø-ÿа-яё])(?=[A-ZÀ-ÖØ-ÞА-ЯЁ])", " ", text))
    letters = unicodedata.normalize("NFKD", text).casefold().replace("ı", "i")
    return " ".join(re.findall(r"[^\W_]+", "".join(it for it in letters if unicodedata.category(it) != "Mn")))


def starred(text: str) -> str:
    """The pattern of a word or of several in their order, in a plain text with a blank at each end."""
    if "\u2e80" <= text[0]:
        return re.escape(plain(text))
    its = [("[^ ]*" if it.startswith("*") else "") + re.escape(plain(it)) + ("[^ ]*" if it.endswith("*") else "") for it in text.split()]
    return f" {' '.join(its)}(?= )"


@functools.cache
def patterns(of_linetypes: bool) -> list[tuple[Role, re.Pattern[str]]]:
    """The words of each role as one pattern, those of linetypes with what these have too."""
    rows = {role: text + "\n" + (LINETYPES.get(role, "") if of_linetypes else "") for role, text in WORDS.items()}
    found = []
    for role, text in rows.items():
        words = [first or second for _, first, second in re.findall(r"(\w\w(?:, \w\w)*:)|\"([^\"]+)\"|(\S+)", text) if first or second]
        found.append((role, re.compile("|".join(map(starred, words)))))
    return found


@functools.lru_cache(maxsize=4096)
def said_by(name: str) -> Said | None:
    """What the name of a layer or of a block says that its lines are for; none where it says nothing."""
    coded = CODED.fullmatch(name)
    if coded and (role := PRESENTATIONS.get(coded["presentation"])):
        return Said(role, coded["presentation"])
    text = f" {plain(name)} "
    return next((Said(role, found[0].strip()) for role, pattern in patterns(False) if (found := pattern.search(text))), None)


@functools.lru_cache(maxsize=1024)
def said_by_linetype(name: str) -> Said | None:
    """What the name of a linetype says: centre lines or hidden ones; none where it says nothing."""
    if numbered := next((Said(role, name) for pattern, role in NUMBERED if pattern.search(name)), None):
        return numbered
    text = f" {plain(name)} "
    told = ((role, pattern.search(text)) for role, pattern in patterns(True) if role in (Role.CENTRE, Role.HIDDEN))
    return next((Said(role, found[0].strip()) for role, found in told if found), None)


def role_of(name: str) -> Role | None:
    """The role that the name of a layer says, if any."""
    said = said_by(name)
    return said.role if said else None
