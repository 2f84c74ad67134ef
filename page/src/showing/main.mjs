// Reads the texts that the page carries, and shows them. Tests find the calls of reading in `Tfpg`, and those of the page in `Page`.
import { readPredict } from "../reading/answers.mjs";
import { readGraph } from "../reading/graph.mjs";
import { historyOf } from "../reading/histories.mjs";
import { hypothesesOf, setOf, statusesOf, statusOf } from "../reading/hypotheses.mjs";
import { readLog } from "../reading/log.mjs";
import { mismatchesOf } from "../reading/mismatches.mjs";
import { probedFor } from "../reading/probe.mjs";
import { readReport, traceOf } from "../reading/report.mjs";
import { readSteps, stepsOf } from "../reading/steps.mjs";
import { textOf } from "../reading/texts.mjs";
import { durationWords, timeWords } from "../reading/times.mjs";
import { treeOf } from "../reading/trees.mjs";
import { prepareBadge } from "./badge.mjs";
import { prepareAddress } from "./address.mjs";
import { prepareDrawings, showWhatMatters } from "./drawing.mjs";
import { byId } from "./elements.mjs";
import { openFiles, openVehicle, readCarried, showCarried } from "./files.mjs";
import { prepareHead } from "./head.mjs";
import { prepareHeadline } from "./headline.mjs";
import { prepareKeys } from "./keys.mjs";
import { followLinks } from "./links.mjs";
import { prepareSheets } from "./sheet.mjs";
import { choose, goTo, markNode, show, state, view } from "./state.mjs";
import { prepareTracks } from "./tracks.mjs";

globalThis.Tfpg = {
  durationWords, historyOf, hypothesesOf, mismatchesOf, probedFor, readGraph, readLog, readPredict, readReport, readSteps,
  setOf, statusOf, statusesOf, stepsOf, textOf, timeWords, traceOf, treeOf
};
globalThis.Page = { choose, goTo, mark: markNode, open: openFiles, openVehicle, show, state, view };

async function begin() {
  const root = document.documentElement;
  try {
    const carried = await readCarried();
    prepareDrawings();
    prepareHead();
    prepareBadge();
    prepareHeadline();
    prepareTracks();
    prepareKeys();
    prepareSheets();
    followLinks();
    await showCarried(carried);
    await prepareAddress();
    showWhatMatters();
    root.dataset.ready = "yes";
  } catch (fault) {
    byId("problems").textContent = "This page could not read its texts: " + fault.message;
    byId("problems").hidden = false;
    root.dataset.ready = "failed";
    throw fault;
  }
  root.dataset.milliseconds = Math.round(performance.now());
}

begin();
