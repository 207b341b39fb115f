//! The constant texts of the member's page, each as the written decision has it.

pub const BEGIN: &str = r#"<!doctype html>
<html lang="en">
<head>
<meta charset="utf-8">
<meta name="viewport" content="width=device-width">
<title>"#;

pub const STYLE: &str = r#"</title>
<style>
:root { --ground:#f1efe8; --paper:#fffefb; --ink:#1d2420; --soft:#566059; --rule:#cfcbbd;
  --bar:#2f6b4f; --up:#1d5c8a; --warn:#8f1d14; --warnbg:#fcefec;
  --serif:"Iowan Old Style","Palatino Linotype",Palatino,"Noto Serif",Georgia,serif;
  --sans:"Segoe UI",system-ui,-apple-system,Roboto,"Noto Sans","Helvetica Neue",Arial,sans-serif }
* { box-sizing:border-box }
html { background:var(--ground); color:var(--ink); -webkit-text-size-adjust:100% }
body { margin:0; font:1rem/1.5 var(--sans); font-variant-numeric:lining-nums tabular-nums }
main { max-width:64rem; margin:2.5rem auto; padding:3.25rem 4rem 3rem; background:var(--paper) }
h1, h2, .sum { font-family:var(--serif); font-weight:400; margin:0 }
p { margin:0; max-width:44rem }
sub { font-size:.7em; line-height:0; vertical-align:-.25em }
small { display:inline-block; font-size:1em; font-weight:400; color:var(--soft) }
header { display:flex; justify-content:space-between; align-items:baseline; border-bottom:2px solid; padding-bottom:.75rem }
h1 { font-size:1.75rem; line-height:1.2 }
.total { padding:1.75rem 0 .25rem }
.total p + p { margin-top:.35rem }
.sum { font-size:4.25rem; line-height:1.1; letter-spacing:-.01em }
.sum span { font-size:1.5rem; letter-spacing:0 }
.soft, header p, h2 + p:not(.note) { color:var(--soft) }
section { margin-top:2.5rem }
h2 { font-size:1.375rem; line-height:1.25; margin-bottom:.25rem }
table { width:100%; border-collapse:collapse; margin-top:.75rem; font-size:.875rem; line-height:1.35 }
th { font-weight:400; text-align:left; vertical-align:bottom; padding:.45rem 0 .2rem }
td { text-align:right; vertical-align:bottom; padding:.45rem 0 .2rem 1rem }
thead th { color:var(--soft); padding:0 0 .3rem }
thead th + th { text-align:right; padding-left:1rem }
thead { border-bottom:1px solid }
b, .co2e { font-weight:600 }
tbody th { color:var(--soft) }
tbody th b { color:var(--ink); margin-right:.35em }
table:not(.wide) tbody tr + tr > * { border-top:1px solid var(--rule) }
.bars td { padding:0; border-bottom:1px solid var(--rule) }
tfoot th, tfoot td { border-top:1px solid; border-bottom:3px double; padding-top:.5rem; padding-bottom:.5rem; font-weight:600 }
tbody:last-of-type .bars td { border-bottom:0 }
tbody td:empty::after { content:"\2013"; color:var(--soft) }
svg { display:block; width:0; min-width:100%; height:7px; fill:var(--bar) }
.up { fill:none; stroke:var(--up); stroke-width:2; vector-effect:non-scaling-stroke }
.zero { stroke:var(--ink); stroke-width:1.5; vector-effect:non-scaling-stroke }
.two { display:grid; grid-template-columns:1fr 1fr; gap:0 3rem }
ul, .note { margin:0; padding-left:1.1rem; font-size:.875rem }
.note { padding:0 }
.not { margin-top:2rem; padding:1.5rem 1.75rem; border:4px solid var(--warn); background:var(--warnbg) }
.not h2 { font-size:2.25rem; color:var(--warn) }
.not h2 + p { color:var(--ink) }
ol { margin:.25rem 0 0; padding-left:1.25rem }
footer { margin-top:2.5rem; border-top:1px solid var(--rule); padding-top:.6rem; color:var(--soft); font-size:.8125rem }
@media screen and (max-width:64rem) {
  main { margin:0 auto; padding:2rem 1.5rem }
  table { font-size:.79rem }
  td, thead th + th { padding-left:.3rem }
}
@media screen and (max-width:47.9rem) {
  main { padding:1.5rem 1rem 2rem }
  table { font-size:.875rem }
  header { display:block }
  .sum { font-size:2.75rem }
  .sum span { display:block; font-size:1.125rem; line-height:1.5 }
  .two { grid-template-columns:1fr; gap:2rem }
  .wide, .wide tbody, .wide tfoot, .wide thead { display:block }
  .wide tr { display:grid; grid-template-columns:1fr auto; gap:0 1rem; padding-top:.5rem }
  .wide th, .wide td { display:block; padding:.1rem 0; border:0 }
  .wide thead th:not(:first-child):not(:last-child) { display:none }
  .wide tbody th, .wide tfoot th, .wide .co2e { grid-row:1; font-size:1rem }
  .wide td { grid-column:1/-1 }
  .wide .co2e { grid-column:2 }
  .wide td:not(.co2e)::before { content:attr(data-l); float:left; color:var(--soft); font-weight:400 }
  .wide td:empty { display:none }
  #gases { font-size:.8125rem }
  #gases tbody th { width:0 }
  #gases td:nth-child(3) { white-space:nowrap }
  .wide .bars { display:block; padding:.25rem 0 0; border-bottom:1px solid var(--rule) }
  .wide tfoot tr { border-top:1px solid; border-bottom:3px double; padding:.5rem 0 }
}
@media print {
  @page { size:A4; margin:15mm 16mm 18mm;
    @bottom-right { content:counter(page) " of " counter(pages); font:8pt sans-serif; color:#566059 } }
  :root { --ground:#fff; --paper:#fff }
  body { font-size:9.5pt; line-height:1.4 }
  main { max-width:none; margin:0; padding:0 }
  h1 { font-size:19pt } h2 { font-size:13.5pt } .sum { font-size:40pt } .sum span { font-size:15pt }
  table { font-size:8pt } ul, .note { font-size:9.5pt }
  td, thead th + th { padding-left:2mm }
  section { margin-top:7.5mm; break-inside:avoid }
  svg { height:1.8mm }
  footer { display:none }
}
@media screen and (prefers-color-scheme:dark) {
  :root { --ground:#111512; --paper:#1a1f1c; --ink:#e9ece7; --soft:#a7b1a9; --rule:#3b443e;
    --bar:#7cc29f; --up:#8dbde8; --warn:#ffb4aa; --warnbg:#2f1a18 }
}
@media print { @page { @bottom-left { content:""#;

pub const MAIN: &str = r#""; font:8pt sans-serif; color:#566059 } } }
</style>
</head>
<body>
<main>
<header>
<h1>"#;

pub const HEADER: &str = "</h1>
<p>Greenhouse gas statement</p>
</header>
";

pub const TOTAL: &str = r#"<div class="total">
<p>Total of the year</p>
<p id="total" class="sum">"#;

pub const TOTAL_END: &str = r#" <span>kg CO<sub>2</sub>e</span></p>
<p class="soft">CO<sub>2</sub>e makes the gases comparable: it says how many kilograms of CO<sub>2</sub> warm as much.
Three tables show how the total is made up, and each ends in it.</p>
</div>
"#;

pub const GROUPS: &str = "<section>
<h2>By group</h2>
<p>In kilograms. CO<sub>2</sub>e is ";

pub const TIMES_CH4: &str = " &times; CH<sub>4</sub> + ";

pub const GROUPS_HEAD: &str = r#" &times; N<sub>2</sub>O + grazing. The bars, end to end, make the total.</p>
<table id="groups" class="wide">
<thead><tr><th>Group</th><th>Head</th><th>CO<sub>2</sub>e<br>per head</th><th>Nitrogen<br>excreted</th><th>Nitrogen<br>for land</th>
<th>Methane<br>CH<sub>4</sub></th><th>Nitrous oxide<br>N<sub>2</sub>O</th><th>Grazing<br>CO<sub>2</sub>e</th>
<th>Together<br>CO<sub>2</sub>e</th></tr></thead>
"#;

pub const FARM_ROW: &str = r#"<tbody><tr><th colspan="8"><b>The farm as a whole</b> energy, soil, tillage</th><td class="co2e">"#;

pub const FOOT: &str = "<tfoot><tr><th>Total</th>";

pub const FOOT_END: &str = "</td></tr></tfoot>
</table>
</section>
";

pub const SOURCES: &str = r#"<section>
<h2>Where it comes from</h2>
<p>The same total by source, in kilograms. A minus means that CO<sub>2</sub> is taken up.</p>
<table id="sources" class="wide">
<thead><tr><th>Source</th><th>Methane<br>CH<sub>4</sub></th><th>Nitrous oxide<br>N<sub>2</sub>O</th>
<th>Carbon dioxide<br>CO<sub>2</sub></th><th>Together<br>CO<sub>2</sub>e</th></tr></thead>
"#;

pub const GASES: &str = "<section>
<h2>How the gases add up</h2>
<p>A kilogram of methane warms as much as ";

pub const GASES_N2O: &str = " kilograms of CO<sub>2</sub>, a kilogram of nitrous oxide as much as ";

pub const GASES_HEAD: &str = r#".
These are the warming factors that the book of the farm names.</p>
<table id="gases">
<thead><tr><th>Gas</th><th>Kilograms</th><th>Factor</th><th>CO<sub>2</sub>e</th></tr></thead>
<tbody><tr><th><b>Methane</b> CH<sub>4</sub></th><td>"#;

pub const FACTOR: &str = "</td><td>&times; ";

pub const CO2E: &str = r#"</td><td class="co2e">"#;

pub const GAS_N2O: &str = "</td></tr>
<tr><th><b>Nitrous oxide</b> N<sub>2</sub>O</th><td>";

pub const GAS_CO2: &str = "</td></tr>
<tr><th><b>Carbon dioxide</b> CO<sub>2</sub></th><td>";

pub const GAS_CO2_FACTOR: &str = r#"</td><td>&times; 1</td><td class="co2e">"#;

pub const GAS_GRAZING: &str = r#"</td></tr>
<tr><th><b>Grazing</b> CO<sub>2</sub>e from the start</th><td></td><td></td><td class="co2e">"#;

pub const GAS_TOTAL: &str = r#"</td></tr></tbody>
<tfoot><tr><th>Total</th><td></td><td></td><td class="co2e">"#;

pub const NOTES: &str = r#"<section class="two">
<div>
<h2>Counted</h2>
<ul>
<li>methane from the digestion of cattle</li>
<li>nitrous oxide from cattle manure in store</li>
<li>methane, nitrous oxide and nitrogen for land of pig manure</li>
<li>CO<sub>2</sub> of energy and of organic soil</li>
<li>CO<sub>2</sub> that a change of tillage takes up or gives off</li>
<li>what cattle graze, in CO<sub>2</sub>e</li>
</ul>
</div>
<div>
<h2>Left out</h2>
<ul>
<li>methane from the digestion of pigs</li>
<li>methane from cattle manure</li>
<li>crops</li>
<li>trees</li>
<li>other credits</li>
</ul>
</div>
</section>
<section>
<h2>How exact this is</h2>
<p class="note">Each record of the book gives whole grams, the third decimal here. From there on everything is added, and nothing is
rounded: the parts of each table make its total to the gram. Only CO<sub>2</sub>e per head is a quotient, rounded to the gram. The figures
are as right as what was entered: feed, head, days and shares.</p>
</section>
"#;

pub const FOOTER: &str = r#"<footer>
<p id="verdict">"#;

pub const CLOSED_OF: &str = ". Made from the closed book of ";

pub const RECORDS_END: &str = " records.</p>
</footer>
</main>
</body>
</html>
";

pub const NOT_CLOSED: &str = r#"<div class="not">
<h2>Not for members</h2>
<p><b>The book of this farm is not closed.</b> There are no figures on this page, because the year may still change. Please do not mail it.</p>
</div>
<section>
<h2>Why</h2>
<p>"#;

pub const NOT_REFUSED: &str = r#"<div class="not">
<h2>Not for members</h2>
<p><b>The book of this farm is refused.</b> There are no figures on this page, because a record of the book is wrong. Please do not mail it.</p>
</div>
<section>
<h2>Why</h2>
<p>"#;

pub const DO_CLOSE: &str = "</p>
</section>
<section>
<h2>What to do</h2>
<ol>
<li>Open the book and enter what is missing.</li>
<li>Close the book. It is then read once more from the first record to the last.</li>
<li>Make this page again: it will have the figures.</li>
</ol>
</section>
";

pub const DO_MEND: &str = "</p>
</section>
<section>
<h2>What to do</h2>
<ol>
<li>Mend the record that is named here, or write the book again.</li>
<li>Close the book. It is then read once more from the first record to the last.</li>
<li>Make this page again: it will have the figures.</li>
</ol>
</section>
";

pub const OPEN_OF: &str = ". Made from a book that is not closed, of ";

pub const REFUSED_OF: &str = ". Made from a book that is refused after ";
