//! The page's style, once for light and once for dark. What happened to a letter, and which rule made a move, is told by a sign beside the colour: a
//! frame's weight, a stroke, a line under the letters, a dashed line.

pub const STYLE: &str = "\
text { font-family: system-ui, -apple-system, 'Segoe UI', 'DejaVu Sans', sans-serif; font-size: 12px; fill: #333; white-space: pre; }
.heading { font-size: 17px; font-weight: 600; fill: #111; }
.panel { font-size: 13px; font-weight: 600; fill: #111; }
.place { font-size: 10px; fill: #555; text-anchor: middle; }
.start { font-size: 11px; fill: #555; text-anchor: end; }
.number { font-size: 11px; text-anchor: middle; }
.letters { font-family: ui-monospace, Menlo, Consolas, 'DejaVu Sans Mono', monospace; font-size: 13px; fill: #111; text-anchor: middle; }
.byte { font-size: 8px; }
.ahead, tspan.unseen { fill: #6a6a66; }
tspan.differs { font-weight: 700; fill: #8f1510; }
.paper { fill: #fff; }
.own-grid { fill: none; stroke: #8a8a84; }
.ahead-grid { fill: none; stroke: #c4c4be; stroke-dasharray: 2 2; }
path.unseen { fill: none; stroke: #c4c4be; }
path.equal { fill: #d9efdd; stroke: #2b7a3d; }
path.differs { fill: #fbdcd8; stroke: #b3261e; stroke-width: 2.2; }
.stroke { fill: none; stroke: #e29d97; stroke-width: 1.5; }
path.carried { fill: #dce8fb; stroke: #a9bfe6; }
.under { fill: none; stroke: #2458b8; stroke-width: 3; }
.next { fill: none; stroke: #985500; stroke-width: 1.4; stroke-dasharray: 3 2; }
.found { fill: none; stroke: #14692b; stroke-width: 2.4; }
.band { fill: #e3f3e6; }
.occurrence, .rest { fill: none; stroke: #14692b; stroke-width: 2; }
.sunday, .kmp { stroke-width: 1.3; }
.sunday .line { fill: none; stroke: #985500; stroke-dasharray: 3 2; }
.sunday .head { fill: #fff; stroke: #985500; }
.kmp .line { fill: none; stroke: #2458b8; stroke-width: 2; }
.kmp .head { fill: #2458b8; stroke: #2458b8; }
@media (prefers-color-scheme: dark) {
text { fill: #ccc; }
.heading { fill: #f2f2f2; }
.panel { fill: #f2f2f2; }
.place { fill: #aaa; }
.start { fill: #aaa; }
.letters { fill: #f2f2f2; }
.ahead, tspan.unseen { fill: #9c9c98; }
tspan.differs { fill: #ffb4ab; }
.paper { fill: #16181c; }
.own-grid { stroke: #7a7e85; }
.ahead-grid { stroke: #4a4e55; }
path.unseen { stroke: #4a4e55; }
path.equal { fill: #1c3a27; stroke: #5fcf9a; }
path.differs { fill: #4a1f1c; stroke: #ff7a6b; }
.stroke { stroke: #a8544b; }
path.carried { fill: #20345a; stroke: #41598a; }
.under { stroke: #6cb0ff; }
.next { stroke: #f0a44a; }
.found { stroke: #5fcf9a; }
.band { fill: #1d2f25; }
.occurrence, .rest { stroke: #5fcf9a; }
.sunday .line { stroke: #f0a44a; }
.sunday .head { fill: #16181c; stroke: #f0a44a; }
.kmp .line { stroke: #6cb0ff; }
.kmp .head { fill: #6cb0ff; stroke: #6cb0ff; }
}
";
