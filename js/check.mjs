// What js/check does, in one process: it says there what that is.
import "./tests/package.test.mjs";
import "./tests/engine.test.mjs";
import "./tests/rules.test.mjs";
import "./tests/pages.test.mjs";
import "./tests/bodies.test.mjs";
import "./tests/sent.test.mjs";
import "./tests/scenarios.test.mjs";
import "./tests/example.test.mjs";
