//! The HTML file of a board: the pages' shapes, lists of what has no place on
//! a page, the numbers of board and plan, and the script that follows ways.

use super::data;
use super::legend;
use super::scene::Scene;
use super::style;
use super::svg;
use super::words::{self, Dotted, Escaped};
use crate::board::{Inner, Node};
use crate::types::PortRef;
use std::fmt::Write;

const CSS: &str = include_str!("page.css");
const FOLLOW: &str = include_str!("follow.js");
const NEAR: &str = include_str!("near.js");
const POINT: &str = include_str!("point.js");
const VIEW: &str = include_str!("view.js");

pub(super) fn file(scene: &Scene, title: &str) -> String {
    let mut out = String::new();
    head(&mut out, title);
    let _ = writeln!(out, "<header><h1>{}</h1><nav>", Escaped(title));
    for page in 0..scene.pages.len() {
        let _ = writeln!(
            out,
            "<button type=\"button\" data-page=\"{page}\">page {page}</button>"
        );
    }
    out.push_str(TOOLS);
    out.push_str("<main>\n<svg id=\"board\">\n");
    for page in 0..scene.pages.len() {
        let hidden = if page > 0 { " display=\"none\"" } else { "" };
        let _ = writeln!(out, "<g class=\"page\" id=\"page{page}\"{hidden}>");
        out.push_str(&svg::shapes(scene, page));
        out.push_str("</g>\n");
    }
    out.push_str("<g id=\"near\"></g><g id=\"lit\"></g><g id=\"labels\"></g>\n</svg>\n<aside>\n");
    aside(&mut out, scene);
    out.push_str("</aside>\n</main>\n<script>\n(function () {\n\"use strict\";\n");
    data::write(&mut out, scene);
    for script in [FOLLOW, VIEW, NEAR, POINT] {
        out.push_str(script);
    }
    out.push_str("start();\n");
    out.push_str("})();\n</script>\n</body>\n</html>\n");
    out
}

/// What a file begins with. Nothing is fetched.
pub(super) fn head(out: &mut String, title: &str) {
    let _ = write!(
        out,
        "<!DOCTYPE html>\n<html lang=\"en\">\n<head>\n<meta charset=\"utf-8\"/>\n\
         <title>{}</title>\n<style>\n{}{CSS}</style>\n</head>\n<body>\n",
        Escaped(title),
        style::CSS
    );
}

const TOOLS: &str = "</nav>\n<form id=\"search\"><input id=\"find\" size=\"26\" autocomplete=\"off\" \
    placeholder=\"n12 node, w5 wire, r7 rerouter, 12.3 port\" \
    aria-label=\"find a node, wire, rerouter or port\"/></form>\n\
    <span><button type=\"button\" id=\"closer\" title=\"closer\">+</button> \
    <button type=\"button\" id=\"farther\" title=\"farther\">\u{2212}</button> \
    <button type=\"button\" id=\"whole\">whole page</button></span>\n</header>\n\
    <noscript><p>Pointing and searching need the script of this file. \
    For print, the SVG of a page has all its labels.</p></noscript>\n";

fn aside(out: &mut String, scene: &Scene) {
    out.push_str("<section id=\"words\"><p>Point at a brick, a port, a run, a rerouter, a lane or a wire; a click holds it, Esc lets go. The wheel brings nearer, dragging moves.</p></section>\n");
    totals(out, scene);
    legend::write(out);
    off_pages(out, scene);
    loose_ends(out, scene);
}

fn totals(out: &mut String, scene: &Scene) {
    let t = scene.plan.totals();
    let _ = writeln!(
        out,
        "<section><h2>The plan</h2><p>Board: nodes: {}, wires: {}. Plan: rerouters: {}, bus wires: {}, deliveries: {}, direct wires: {}, groups laid: {}.</p>",
        scene.board.nodes.len(),
        scene.board.wires.len(),
        t.rerouters,
        t.bus_wires,
        t.deliveries,
        t.direct,
        t.laid
    );
    if scene.pages.is_empty() {
        out.push_str("<p>The board has no page.</p>\n");
    }
    out.push_str("<ul>\n");
    for (page, on_page) in scene.pages.iter().enumerate() {
        let bus = scene.bus(page);
        let gutter = match (scene.band(page), scene.board.pages[page].min_y) {
            (Some(_), _) => format!("lanes: {}, band: {}", bus.lanes_used, bus.band_width),
            (None, Some(_)) => "no lane, so no gutter".to_string(),
            (None, None) => "no min_y, so no gutter".to_string(),
        };
        let _ = writeln!(
            out,
            "<li>page {page}: bricks: {}, rerouters: {}; {gutter}</li>",
            on_page.nodes.len(),
            on_page.rerouters.len()
        );
    }
    out.push_str("</ul></section>\n");
}

/// A list to unfold; each item goes to a thing by its letter and number.
fn fold(out: &mut String, heading: &str, items: impl Iterator<Item = (String, String)>) {
    let _ = writeln!(out, "<details><summary>{heading}</summary><ul>");
    for (go, said) in items {
        let _ = writeln!(out, "<li><a data-go=\"{go}\">{said}</a></li>");
    }
    out.push_str("</ul></details>\n");
}

/// Nodes that have no place on a page of their own.
fn off_pages(out: &mut String, scene: &Scene) {
    let nodes = scene.board.nodes.iter().zip(&scene.layout.cells);
    let unplaced: Vec<&Node> = (nodes.filter(|(_, cell)| cell.is_none()))
        .map(|(node, _)| node)
        .collect();
    if !unplaced.is_empty() {
        let heading = format!("{} nodes without a row on a page", unplaced.len());
        fold(
            out,
            &heading,
            unplaced.iter().map(|node| unplaced_node(node)),
        );
    }
    let inner = &scene.board.inner;
    if !inner.is_empty() {
        let heading = format!("{} nodes inside chips", inner.len());
        fold(out, &heading, inner.iter().map(|f| inner_node(scene, f)));
    }
}

fn unplaced_node(node: &Node) -> (String, String) {
    let place = match node.at {
        Some((x, y)) => format!("at x {x}, y {y}, on no row"),
        None => "not placed".to_string(),
    };
    let said = format!("{}; {place}", words::node(node));
    (format!("n{}", node.id.0), said)
}

fn inner_node(scene: &Scene, f: &Inner) -> (String, String) {
    let top = scene.layout.anchor(f.id).map(|k| scene.board.nodes[k].id);
    let at = match top {
        Some(top) if top == f.chip => String::new(),
        Some(top) => format!("; its wires enter at node {}", top.0),
        None => "; the chip has no brick".to_string(),
    };
    let (id, chip, class) = (f.id.0, f.chip.0, words::class(f.class));
    let said = format!("node {id}{class}, inside chip {chip}{at}");
    (format!("n{id}"), said)
}

/// Ends of wires that name no node.
fn loose_ends(out: &mut String, scene: &Scene) {
    let missing = |port: PortRef| scene.layout.anchor(port.node_id).is_none();
    let wires = scene.board.wires.iter().enumerate();
    let loose: Vec<_> = wires
        .filter(|(_, w)| missing(w.source) || missing(w.target))
        .collect();
    if loose.is_empty() {
        return;
    }
    let heading = format!("{} wires with an end that no node has", loose.len());
    let items = loose.iter().map(|(k, wire)| {
        let (source, target) = (Dotted(wire.source), Dotted(wire.target));
        (format!("w{k}"), format!("wire {k}: {source} &gt; {target}"))
    });
    fold(out, &heading, items);
}
