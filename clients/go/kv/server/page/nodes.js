"use strict";
// The nodes of the cluster, by what each of them reports at /status.

const PATIENCE = 2000; // milliseconds until a node that does not answer counts as down
const KEPT = 60; // polls whose sync times are kept

// What a store reports that is no raftlog.
const NO_LOG = {
  syncs: 0,
  sync_seconds: 0,
  longest_sync_seconds: 0,
  sync_times: [],
  sync_bounds: [],
  written_bytes: 0,
  files: 0,
  index_bytes: 0,
};

const sum = (list, of) => list.reduce((all, it) => all + of(it), 0);
const logOf = (status) => status.log ?? NO_LOG;

async function ask(url) {
  const gone = new AbortController();
  const timer = setTimeout(() => gone.abort(), PATIENCE);
  try {
    const response = await fetch(url, { cache: "no-store", signal: gone.signal });
    if (!response.ok) throw new Error(`status ${response.status}`);
    const report = await response.json();
    if (!Array.isArray(report?.groups)) throw new Error("no report of a node");
    return report;
  } finally {
    clearTimeout(timer);
  }
}

// A node: its last report and the time of that, and how much a second it did between the last two.
class Node {
  constructor(number, url, address) {
    Object.assign(this, { number, url, address, isUp: false, status: null, at: 0, syncTimes: [] });
    this.rates = { commits: 0, syncs: 0, syncSeconds: 0 };
  }

  async poll() {
    try {
      this.take(await ask(this.url), Date.now());
    } catch {
      this.isUp = false;
    }
  }

  take(status, now) {
    const [before, seconds] = [this.isUp ? this.status : null, (now - this.at) / 1000];
    Object.assign(this, { status, at: now, isUp: true });
    if (before && seconds > 0) this.compare(before, seconds);
  }

  // A node that was started again counts from 0.
  compare(before, seconds) {
    const more = (of) => Math.max(0, of(this.status) - of(before));
    const syncs = more((it) => logOf(it).syncs);
    const took = more((it) => logOf(it).sync_seconds);
    this.rates.commits = more((it) => sum(it.groups, (group) => group.commit)) / seconds;
    this.rates.syncs = syncs / seconds;
    if (syncs) this.rates.syncSeconds = took / syncs;
    this.syncTimes.push(syncs ? took / syncs : 0);
    if (this.syncTimes.length > KEPT) this.syncTimes.shift();
  }

  get state() {
    return this.isUp ? "up" : "down";
  }

  group(number) {
    return this.status?.groups.find((group) => group.group === number);
  }

  follows(leader, number) {
    return this.isUp && this.group(number)?.leader === leader.number;
  }
}

function groupNumbers(nodes) {
  const groups = nodes.flatMap((node) => node.status?.groups ?? []);
  return [...new Set(groups.map((group) => group.group))].sort((a, b) => a - b);
}

// The leader of a group, as the node knows it that has the latest term; 0 for none, and for one that is down.
function leaderOf(nodes, number) {
  const known = nodes.filter((node) => node.isUp).map((node) => node.group(number));
  const latest = known.filter((group) => group?.leader).sort((a, b) => b.term - a.term)[0];
  return nodes.some((node) => node.isUp && node.number === latest?.leader) ? latest.leader : 0;
}

function ledBy(nodes, node) {
  return groupNumbers(nodes).filter((number) => leaderOf(nodes, number) === node.number);
}

// The node that served this page is asked by the page's own address.
function nodesOf(own) {
  const urlOf = ({ node, http }) => (node === own.node ? "status" : `http://${http}/status`);
  return own.nodes.map((it) => new Node(it.node, urlOf(it), it.http));
}
