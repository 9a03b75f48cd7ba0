// Run in a browser, in the page of `browsers.py`: sends where the browser has put each visible character of the documents in the page's frames.
'use strict';

// The characters of a text that are not white space, each with its index.
function* visible(text) {
  let at = 0;
  for (const character of text) {
    if (!/\s/.test(character)) yield [character, at];
    at += character.length;
  }
}

// The characters of an SVG document: each with its left and right edge and its baseline. A text of which the browser leaves out white space is read as it shows it.
function ofSvg(view) {
  const found = [];
  for (const element of view.querySelectorAll('text')) {
    const text = element.textContent, count = element.getNumberOfChars();
    const shown = count === text.length ? text : text.replace(/\s+/g, ' ').trim();
    if (shown.length !== count) throw `${count} characters are shown of ${JSON.stringify(text)}`;
    for (const [character, at] of visible(shown)) {
      const start = element.getStartPositionOfChar(at), end = element.getEndPositionOfChar(at);
      found.push([character, start.x, end.x, start.y]);
    }
  }
  return found;
}

// The width of a cell of an element: that of `0` in its font.
function cellOf(element) {
  const ruler = element.ownerDocument.createElement('span');
  ruler.style = 'display: inline-block; width: 100ch';
  element.append(ruler);
  const width = ruler.getBoundingClientRect().width / 100;
  ruler.remove();
  return width;
}

// The characters of an HTML element: each with its left and right edge, in cells from where the element's lines begin, and the height of its middle.
function ofPre(element) {
  const found = [], cell = cellOf(element), style = getComputedStyle(element), range = element.ownerDocument.createRange();
  const left = element.getBoundingClientRect().left + parseFloat(style.borderLeftWidth) + parseFloat(style.paddingLeft);
  const nodes = element.ownerDocument.createTreeWalker(element, NodeFilter.SHOW_TEXT);
  while (nodes.nextNode()) {
    for (const [character, at] of visible(nodes.currentNode.data)) {
      range.setStart(nodes.currentNode, at);
      range.setEnd(nodes.currentNode, at + character.length);
      const box = range.getBoundingClientRect();
      found.push([character, (box.left - left) / cell, (box.right - left) / cell, (box.top + box.bottom) / 2]);
    }
  }
  return found;
}

function measured() {
  const views = [...document.querySelectorAll('iframe')].map(frame => frame.contentDocument);
  const page = views.pop();
  return {svgs: views.map(ofSvg), elements: [...page.querySelectorAll('pre')].map(element => [element.textContent, ofPre(element)])};
}

addEventListener('load', () => {
  let answer;
  try {
    answer = measured();
  } catch (error) {
    answer = {error: String(error)};
  }
  const request = new XMLHttpRequest();
  request.open('POST', '/measured', false);
  request.send(JSON.stringify(answer));
});
