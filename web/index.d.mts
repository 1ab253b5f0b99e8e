// Made by web/types of web/index.mjs.
export { numbers } from "./sedgechisel.mjs";
export { Link } from "./simulated.mjs";
export { Ground, Spacecraft, load } from "./nodes.mjs";
export { Action, BoardStatus, Executor, commandPacket, historyAfter, newRecord, rebuildOrder, restartOrder } from "./executor.mjs";
export { Commander, CommanderAction } from "./commanding.mjs";
export { Alert, Clcw, ClcwFault, ConfigFault, CopFault, Fault, LedgerFault, LinkFault, LogFault, SimFault, TcFault, TelemetryFault, TmFault } from "./values.mjs";
