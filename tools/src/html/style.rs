//! The page's one style sheet. It has none of the signs that XML reads as markup.

pub const STYLE: &str = "
:root { color-scheme: light; }
* { box-sizing: border-box; }
body { margin: 0 auto; padding: 1rem 1.25rem 3rem; max-width: 62rem; background: #fff; color: #1a1a1a;
  font: 14px/1.45 system-ui, 'Segoe UI', Roboto, 'Liberation Sans', Arial, sans-serif; font-variant-numeric: tabular-nums; }
header { border-bottom: 2px solid #1a1a1a; margin-bottom: 1rem; padding-bottom: .5rem; }
h1 { font-size: 1.5rem; line-height: 1.2; margin: 0 0 .5rem; overflow-wrap: anywhere; }
h2 { font-size: 1.2rem; margin: 2.25rem 0 .5rem; padding-bottom: .2rem; border-bottom: 1px solid #767676; }
h3 { font-size: 1rem; margin: 1.5rem 0 .25rem; }
p { margin: .25rem 0 .5rem; }
a { color: #00508a; text-underline-offset: 2px; }
.note { color: #454545; }
.counts { display: flex; flex-wrap: wrap; gap: .5rem 2rem; margin: .5rem 0 .75rem; padding: 0; list-style: none; }
.counts b { display: block; font-size: 1.25rem; line-height: 1.2; }
nav ul { display: flex; flex-wrap: wrap; gap: .15rem 1rem; margin: .25rem 0; padding: 0; list-style: none; }
.legend { display: flex; flex-wrap: wrap; gap: .25rem 1.25rem; align-items: center; }
.swatch { display: inline-flex; gap: .4rem; align-items: center; }
.wide { overflow-x: auto; margin: .5rem 0 1.25rem; }
table { border-collapse: collapse; width: 100%; }
caption { text-align: left; font-weight: 600; padding: .35rem 0; }
.closes h3 { font-size: inherit; padding: .35rem 0 0; margin: 0; }
th, td { padding: .2rem .5rem; text-align: left; vertical-align: top; border-bottom: 1px solid #dcdcdc; }
thead th { line-height: 1.25; border-bottom: 1.5px solid #1a1a1a; font-size: .86em; font-weight: 600; vertical-align: bottom; }
thead th::first-letter { text-transform: uppercase; }
tbody th { font-weight: 600; white-space: nowrap; }
tfoot th, tfoot td { border-top: 1.5px solid #1a1a1a; border-bottom: 0; font-weight: 600; }
td:last-child { padding-right: .25rem; }
.n, td[data-figure], th[data-figure] { text-align: right; white-space: nowrap; }
thead th.n { white-space: normal; }
.w { white-space: nowrap; }
.items { table-layout: fixed; min-width: 44rem; }
.items thead th { width: 13%; }
.items thead th:nth-child(3) { width: 18%; }
.items thead th:nth-child(4) { width: 27%; }
.items thead th:nth-child(6) { width: 19%; }
.fail { border-left: 4px solid #1a1a1a; padding-left: .75rem; }
.fail td { vertical-align: middle; }
.fail thead th, .fail thead th.n { width: 4.25rem; white-space: nowrap; }
.fail thead th:nth-child(1) { width: 12rem; }
.fail thead th:nth-child(2) { width: 236px; }
.fail .short th, .fail .short td { border-bottom: 1.5px solid #767676; font-weight: 600; }
.bar { width: 236px; padding-top: 0; padding-bottom: 0; }
.bar svg { display: block; }
.b { stroke: #1a1a1a; stroke-width: 1; }
.t { stroke: #b8b8b8; stroke-width: 1; stroke-dasharray: 1 3; }
.day { table-layout: fixed; min-width: 30rem; }
.day th.n { width: 4.5rem; }
.day td { overflow-wrap: anywhere; }
.refused td, .refused th { background: #f2f2f2; }
.refused th { border-left: 4px double #1a1a1a; }
ul { margin: .15rem 0 .25rem; padding-left: 1.1rem; }
.closes { margin: .75rem 0 1.25rem; }
.run { display: grid; grid-template-columns: repeat(auto-fill, minmax(min(20rem, 100%), 1fr)); gap: 0 1.5rem; padding: .2rem 0 0; list-style: none; }
.run li { border-bottom: 1px solid #dcdcdc; }
@media (max-width: 40rem) {
  body { padding: .75rem .75rem 2rem; }
  h2 { margin-top: 1.75rem; }
  .day { min-width: 26rem; }
  .day th.n { width: 3.9rem; }
  th, td { padding: .2rem .3rem; }
}
@media print {
  @page { size: A4; margin: 14mm 12mm; }
  body { max-width: none; padding: 0; color: #000; font-size: 8.5pt; }
  a { color: inherit; text-decoration: none; }
  nav { display: none; }
  .note { color: #000; }
  .wide { overflow: visible; }
  .run { grid-template-columns: repeat(2, 1fr); }
  th, td { padding: .1rem .3rem; }
  thead { display: table-header-group; }
  tfoot { display: table-row-group; }
  tr, .fail, .auction, .legend, .run li { break-inside: avoid; }
  h1, h2, h3, caption, thead, h2 + .note, h3 + .note { break-after: avoid; }
  .items { min-width: 0; }
  .day { min-width: 0; }
  .fail thead th, .fail thead th.n { width: auto; white-space: normal; }
  .refused td, .refused th { background: none; }
}
";
