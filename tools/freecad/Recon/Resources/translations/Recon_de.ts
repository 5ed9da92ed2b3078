<?xml version="1.0" encoding="utf-8"?>
<!DOCTYPE TS>
<TS version="2.1" language="de">
  <context>
    <name>Recon</name>
    <message>
      <source>A FAULT OF RECON</source>
      <translation>EIN FEHLER VON RECON</translation>
    </message>
    <message>
      <source>A drawing</source>
      <translation>Eine Zeichnung</translation>
    </message>
    <message>
      <source>Add the view that leaves
{} solids: {}</source>
      <translation>Die Ansicht hinzufügen,
die {} Körper übrig lässt: {}</translation>
    </message>
    <message>
      <source>Add the view that settles</source>
      <translation>Die Ansicht hinzufügen, die es entscheidet</translation>
    </message>
    <message>
      <source>Add the view that settles:
{}</source>
      <translation>Die Ansicht hinzufügen,
die es entscheidet: {}</translation>
    </message>
    <message>
      <source>Asking ..</source>
      <translation>Wird gefragt ..</translation>
    </message>
    <message>
      <source>CANCELLED</source>
      <translation>ABGEBROCHEN</translation>
    </message>
    <message>
      <source>Cancel</source>
      <translation>Abbrechen</translation>
    </message>
    <message>
      <source>FAILED</source>
      <translation>MISSLUNGEN</translation>
    </message>
    <message>
      <source>General</source>
      <translation>Allgemein</translation>
    </message>
    <message>
      <source>Is this page ambiguous?</source>
      <translation>Ist dieses Blatt mehrdeutig?</translation>
    </message>
    <message>
      <source>Lists every solid that has the views of the page, and says which view would settle which one is meant</source>
      <translation>Nennt jeden Körper, der die Ansichten des Blatts hat, und sagt, welche Ansicht entschiede, welcher gemeint ist</translation>
    </message>
    <message>
      <source>Makes every solid that has the views of a DXF file</source>
      <translation>Macht jeden Körper, der die Ansichten einer DXF-Datei hat</translation>
    </message>
    <message>
      <source>NOT DECIDED</source>
      <translation>NICHT ENTSCHIEDEN</translation>
    </message>
    <message>
      <source>NOT READ</source>
      <translation>NICHT GELESEN</translation>
    </message>
    <message>
      <source>Recon: {}</source>
      <translation>Recon: {}</translation>
    </message>
    <message>
      <source>Save what is to be sent ..</source>
      <translation>Speichern, was zu senden ist ..</translation>
    </message>
    <message>
      <source>Show hidden lines</source>
      <translation>Verdeckte Kanten zeigen</translation>
    </message>
    <message>
      <source>Show the hidden lines</source>
      <translation>Die verdeckten Kanten zeigen</translation>
    </message>
    <message>
      <source>Solid {}</source>
      <translation>Körper {}</translation>
    </message>
    <message>
      <source>Solid {} of {}</source>
      <translation>Körper {} von {}</translation>
    </message>
    <message>
      <source>Solid {}: {}</source>
      <translation>Körper {}: {}</translation>
    </message>
    <message>
      <source>Solid {}: {} - the document's part</source>
      <translation>Körper {}: {} - der Teil des Dokuments</translation>
    </message>
    <message>
      <source>Solids from a drawing</source>
      <translation>Körper aus einer Zeichnung</translation>
    </message>
    <message>
      <source>Solids of {}</source>
      <translation>Körper von {}</translation>
    </message>
    <message>
      <source>Solids that recon lists</source>
      <translation>Körper, die recon nennt</translation>
    </message>
    <message>
      <source>The Python 3 that asks</source>
      <translation>Das Python 3, das fragt</translation>
    </message>
    <message>
      <source>The document's part has these views, and isn't listed: that is a fault of recon and not of the page. Please send the file that the button saves: it has the part, the drawing, recon's answer and the versions.</source>
      <translation>Der Teil des Dokuments hat diese Ansichten und ist nicht genannt: Das ist ein Fehler von recon und nicht des Blatts. Bitte senden Sie die Datei, die der Knopf speichert: Sie enthält den Teil, die Zeichnung, recons Antwort und die Versionen.</translation>
    </message>
    <message>
      <source>The document's part isn't among them: it has rounds that don't stand free, or curves of another kind. It has the page's views too.</source>
      <translation>Der Teil des Dokuments ist nicht unter ihnen: Er hat Rundungen, die nicht freistehen, oder Kurven anderer Art. Auch er hat die Ansichten des Blatts.</translation>
    </message>
    <message>
      <source>The drawing's unit of length</source>
      <translation>Die Längeneinheit der Zeichnung</translation>
    </message>
    <message>
      <source>The folder that has draft's modules</source>
      <translation>Der Ordner mit den Modulen von draft</translation>
    </message>
    <message>
      <source>The modules of draft aren't in {}: name their folder in the preferences, Recon.</source>
      <translation>Die Module von draft sind nicht in {}: Nennen Sie ihren Ordner in den Einstellungen, Recon.</translation>
    </message>
    <message>
      <source>The most solids that are listed</source>
      <translation>So viele Körper werden höchstens genannt</translation>
    </message>
    <message>
      <source>The page isn't there any more.</source>
      <translation>Das Blatt ist nicht mehr da.</translation>
    </message>
    <message>
      <source>The process that asks ended with status {}: {}</source>
      <translation>Der Prozess, der fragt, endete mit Status {}: {}</translation>
    </message>
    <message>
      <source>The process that asks told no end.</source>
      <translation>Der Prozess, der fragt, nannte kein Ende.</translation>
    </message>
    <message>
      <source>The program recon, where draft doesn't find it</source>
      <translation>Das Programm recon, wo draft es nicht findet</translation>
    </message>
    <message>
      <source>The solids are in the group {}; a step back takes them away.</source>
      <translation>Die Körper sind in der Gruppe {}; ein Schritt zurück nimmt sie weg.</translation>
    </message>
    <message>
      <source>The views are drawn, and recon lists the solids ..</source>
      <translation>Die Ansichten werden gezeichnet, und recon sucht die Körper ..</translation>
    </message>
    <message>
      <source>Views of {}</source>
      <translation>Ansichten von {}</translation>
    </message>
    <message>
      <source>What is to be sent</source>
      <translation>Was zu senden ist</translation>
    </message>
    <message>
      <source>What the page leaves open as it is, is looked for ..</source>
      <translation>Was das Blatt offen lässt, wie es ist, wird gesucht ..</translation>
    </message>
    <message>
      <source>What was found, changed, assumed and left out:</source>
      <translation>Was gefunden, geändert, angenommen und weggelassen wurde:</translation>
    </message>
    <message>
      <source>less than the part</source>
      <translation>weniger als der Teil</translation>
    </message>
    <message>
      <source>more than the part</source>
      <translation>mehr als der Teil</translation>
    </message>
    <message>
      <source>only in the document's part</source>
      <translation>nur im Teil des Dokuments</translation>
    </message>
    <message>
      <source>only in this solid</source>
      <translation>nur in diesem Körper</translation>
    </message>
    <message>
      <source>this solid</source>
      <translation>dieser Körper</translation>
    </message>
    <message>
      <source>{} can't be run: {}</source>
      <translation>{} lässt sich nicht starten: {}</translation>
    </message>
    <message>
      <source>{} is no program that may be run: name recon in the preferences, Recon.</source>
      <translation>{} ist kein Programm, das laufen darf: Nennen Sie recon in den Einstellungen, Recon.</translation>
    </message>
    <message>
      <source>{} isn't there: name a Python 3 in the preferences, Recon.</source>
      <translation>{} ist nicht da: Nennen Sie ein Python 3 in den Einstellungen, Recon.</translation>
    </message>
  </context>
  <context>
    <name>Workbench</name>
    <message>
      <source>Is a drawing ambiguous? Every solid that has its views</source>
      <translation>Ist eine Zeichnung mehrdeutig? Jeder Körper, der ihre Ansichten hat</translation>
    </message>
  </context>
</TS>
