<?xml version="1.0" encoding="utf-8"?>
<!DOCTYPE TS>
<TS version="2.1" language="en">
  <context>
    <name>Recon</name>
    <message>
      <source>A FAULT OF RECON</source>
      <translation type="unfinished" />
    </message>
    <message>
      <source>A drawing</source>
      <translation type="unfinished" />
    </message>
    <message>
      <source>Add the view that leaves
{} solids: {}</source>
      <translation type="unfinished" />
    </message>
    <message>
      <source>Add the view that settles</source>
      <translation type="unfinished" />
    </message>
    <message>
      <source>Add the view that settles:
{}</source>
      <translation type="unfinished" />
    </message>
    <message>
      <source>Asking ..</source>
      <translation type="unfinished" />
    </message>
    <message>
      <source>CANCELLED</source>
      <translation type="unfinished" />
    </message>
    <message>
      <source>Cancel</source>
      <translation type="unfinished" />
    </message>
    <message>
      <source>FAILED</source>
      <translation type="unfinished" />
    </message>
    <message>
      <source>General</source>
      <translation type="unfinished" />
    </message>
    <message>
      <source>Is this page ambiguous?</source>
      <translation type="unfinished" />
    </message>
    <message>
      <source>Lists every solid that has the views of the page, and says which view would settle which one is meant</source>
      <translation type="unfinished" />
    </message>
    <message>
      <source>Makes every solid that has the views of a DXF file</source>
      <translation type="unfinished" />
    </message>
    <message>
      <source>NOT DECIDED</source>
      <translation type="unfinished" />
    </message>
    <message>
      <source>NOT READ</source>
      <translation type="unfinished" />
    </message>
    <message>
      <source>Recon: {}</source>
      <translation type="unfinished" />
    </message>
    <message>
      <source>Save what is to be sent ..</source>
      <translation type="unfinished" />
    </message>
    <message>
      <source>Show hidden lines</source>
      <translation type="unfinished" />
    </message>
    <message>
      <source>Show the hidden lines</source>
      <translation type="unfinished" />
    </message>
    <message>
      <source>Solid {}</source>
      <translation type="unfinished" />
    </message>
    <message>
      <source>Solid {} of {}</source>
      <translation type="unfinished" />
    </message>
    <message>
      <source>Solid {}: {}</source>
      <translation type="unfinished" />
    </message>
    <message>
      <source>Solid {}: {} - the document's part</source>
      <translation type="unfinished" />
    </message>
    <message>
      <source>Solids from a drawing</source>
      <translation type="unfinished" />
    </message>
    <message>
      <source>Solids of {}</source>
      <translation type="unfinished" />
    </message>
    <message>
      <source>Solids that recon lists</source>
      <translation type="unfinished" />
    </message>
    <message>
      <source>The Python 3 that asks</source>
      <translation type="unfinished" />
    </message>
    <message>
      <source>The document's part has these views, and isn't listed: that is a fault of recon and not of the page. Please send the file that the button saves: it has the part, the drawing, recon's answer and the versions.</source>
      <translation type="unfinished" />
    </message>
    <message>
      <source>The document's part isn't among them: it has rounds that don't stand free, or curves of another kind. It has the page's views too.</source>
      <translation type="unfinished" />
    </message>
    <message>
      <source>The drawing's unit of length</source>
      <translation type="unfinished" />
    </message>
    <message>
      <source>The folder that has draft's modules</source>
      <translation type="unfinished" />
    </message>
    <message>
      <source>The modules of draft aren't in {}: name their folder in the preferences, Recon.</source>
      <translation type="unfinished" />
    </message>
    <message>
      <source>The most solids that are listed</source>
      <translation type="unfinished" />
    </message>
    <message>
      <source>The page isn't there any more.</source>
      <translation type="unfinished" />
    </message>
    <message>
      <source>The process that asks ended with status {}: {}</source>
      <translation type="unfinished" />
    </message>
    <message>
      <source>The process that asks told no end.</source>
      <translation type="unfinished" />
    </message>
    <message>
      <source>The program recon, where draft doesn't find it</source>
      <translation type="unfinished" />
    </message>
    <message>
      <source>The solids are in the group {}; a step back takes them away.</source>
      <translation type="unfinished" />
    </message>
    <message>
      <source>The views are drawn, and recon lists the solids ..</source>
      <translation type="unfinished" />
    </message>
    <message>
      <source>Views of {}</source>
      <translation type="unfinished" />
    </message>
    <message>
      <source>What is to be sent</source>
      <translation type="unfinished" />
    </message>
    <message>
      <source>What the page leaves open as it is, is looked for ..</source>
      <translation type="unfinished" />
    </message>
    <message>
      <source>What was found, changed, assumed and left out:</source>
      <translation type="unfinished" />
    </message>
    <message>
      <source>less than the part</source>
      <translation type="unfinished" />
    </message>
    <message>
      <source>more than the part</source>
      <translation type="unfinished" />
    </message>
    <message>
      <source>only in the document's part</source>
      <translation type="unfinished" />
    </message>
    <message>
      <source>only in this solid</source>
      <translation type="unfinished" />
    </message>
    <message>
      <source>this solid</source>
      <translation type="unfinished" />
    </message>
    <message>
      <source>{} can't be run: {}</source>
      <translation type="unfinished" />
    </message>
    <message>
      <source>{} is no program that may be run: name recon in the preferences, Recon.</source>
      <translation type="unfinished" />
    </message>
    <message>
      <source>{} isn't there: name a Python 3 in the preferences, Recon.</source>
      <translation type="unfinished" />
    </message>
  </context>
  <context>
    <name>Workbench</name>
    <message>
      <source>Is a drawing ambiguous? Every solid that has its views</source>
      <translation type="unfinished" />
    </message>
  </context>
</TS>
