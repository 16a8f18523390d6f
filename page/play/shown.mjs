// The page of a run (tools/page), filled with a run that was made here.

// What the page needs of a policy.
function shownPolicy(policy) {
  const channels = policy.channels.map(({ name, label }) => ({ name, label }));
  return { principals: policy.principals, channels, tasks: policy.tasks.map(({ name }) => ({ name })) };
}

// What a page holds, as JSON in which nothing ends or opens an element.
function heldText(held) {
  return JSON.stringify(held).replaceAll('<!--', '\\u003c!--').replaceAll('</', '<\\/').replaceAll('<script', '\\u003cscript');
}

export function runPage(template, policy, script, history) {
  const held = { observer: null, policy: shownPolicy(JSON.parse(policy)), script, history, lines: null };
  return JSON.parse(template).replace('@HELD@', () => heldText(held));
}
