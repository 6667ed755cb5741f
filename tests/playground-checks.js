// What is wrong with the roles, names and contrast of a page, as sentences; evaluated in the page by tests/playground.
(() => {
  const faults = [];
  const isShown = node => {
    if (node.closest('[hidden], [aria-hidden="true"]') || node.closest('dialog:not([open])') || node.closest('details:not([open]) > :not(summary)')) return false;
    const style = getComputedStyle(node), r = node.getBoundingClientRect();
    return style.visibility !== 'hidden' && style.display !== 'none' && r.width > 1 && r.height > 1;
  };
  const named = node => [node.getAttribute('aria-label'), (node.getAttribute('aria-labelledby') || '').split(' ').map(id => document.getElementById(id)?.textContent).join(''),
    node.id && document.querySelector(`label[for="${node.id}"]`)?.textContent, node.closest('label')?.textContent, node.title,
    node.matches('button, [role="tab"], [role="option"], a, summary') ? node.textContent : ''].find(text => text && text.trim());
  const told = node => `<${node.tagName.toLowerCase()}${node.id ? ' id=' + node.id : ''}${node.className && node.className.baseVal === undefined ? ' class=' + node.className : ''}> ${node.textContent.trim().slice(0, 40)}`;
  for (const node of document.querySelectorAll('button, select, input, textarea, iframe, a[href], [role="tab"], [role="tabpanel"], [role="textbox"], [role="listbox"], dialog, [tabindex="0"]:not(li):not(g)')) {
    if (isShown(node) && !named(node)) faults.push(`no name: ${told(node)}`);
  }
  const ids = [...document.querySelectorAll('[id]')].map(node => node.id);
  for (const id of new Set(ids)) if (ids.filter(one => one === id).length > 1) faults.push(`the id ${id} is used more than once`);
  for (const name of ['aria-controls', 'aria-labelledby', 'aria-owns', 'aria-activedescendant']) {
    for (const node of document.querySelectorAll(`[${name}]`)) {
      for (const id of node.getAttribute(name).split(' ')) if (!document.getElementById(id)) faults.push(`${name}="${id}" names nothing: ${told(node)}`);
    }
  }
  for (const list of document.querySelectorAll('[role="tablist"]')) {
    const tabs = [...list.querySelectorAll('[role="tab"]')];
    if (tabs.filter(tab => tab.getAttribute('aria-selected') === 'true').length !== 1) faults.push('not exactly one tab is selected');
    if (tabs.filter(tab => tab.tabIndex === 0).length !== 1) faults.push('not exactly one tab takes the focus');
  }
  if (!document.documentElement.lang) faults.push('the page has no language');
  if (document.querySelectorAll('h1').length !== 1) faults.push('not exactly one main heading');
  if (document.querySelectorAll('main').length !== 1) faults.push('not exactly one main part');
  if (!document.querySelector('[role="status"], [aria-live]')) faults.push('no live region');
  // Contrast of texts with what is behind them: 4.5, or 3 for large ones.
  const parsed = text => { const found = text.match(/[\d.]+/g).map(Number); return found.length > 3 ? found : [...found, 1]; };
  const over = (front, back) => front.slice(0, 3).map((part, at) => part * front[3] + back[at] * (1 - front[3]));
  const luminance = colour => colour.slice(0, 3).map(part => part / 255).map(part => part <= 0.04045 ? part / 12.92 : ((part + 0.055) / 1.055) ** 2.4)
    .reduce((sum, part, at) => sum + part * [0.2126, 0.7152, 0.0722][at], 0);
  const behind = node => {
    const layers = [];
    for (let at = node; at; at = at.parentElement) {
      const colour = parsed(getComputedStyle(at).backgroundColor);
      if (colour[3] > 0) layers.push(colour);
      if (colour[3] === 1) break;
    }
    const isDark = matchMedia('(prefers-color-scheme: dark)').matches;
    return layers.reverse().reduce((back, front) => over(front, back), isDark ? [20, 23, 26] : [255, 255, 255]);
  };
  const walker = document.createTreeWalker(document.body, NodeFilter.SHOW_TEXT), seen = new Set();
  for (let text = walker.nextNode(); text; text = walker.nextNode()) {
    const node = text.parentElement;
    if (!text.data.trim() || seen.has(node) || node.closest('svg, script, style, noscript, option, .CodeMirror-measure, :disabled') || !isShown(node)) continue;
    seen.add(node);
    const style = getComputedStyle(node), back = behind(node), front = over(parsed(style.color), back);
    const [high, low] = [luminance(front), luminance(back)].sort((one, other) => other - one), contrast = (high + 0.05) / (low + 0.05);
    const size = parseFloat(style.fontSize), isLarge = size >= 24 || size >= 18.66 && Number(style.fontWeight) >= 700;
    if (contrast < (isLarge ? 3 : 4.5)) faults.push(`contrast ${contrast.toFixed(2)}: ${told(node)}`);
  }
  return [...new Set(faults)];
})()
