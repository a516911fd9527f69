"use strict";

// The settings of the profile in which Firefox plays: every host leads to this run's listener, nothing is asked by the
// browser itself, and what the engine leaves out (docs/BROWSERS.md) is off.

const NOWHERE = "data:,";

const QUIET = {
  "app.normandy.enabled": false,
  "app.update.disabledForTesting": true,
  "browser.aboutHomeSnippets.updateUrl": NOWHERE,
  "browser.newtabpage.activity-stream.feeds.topsites": false,
  "browser.newtabpage.enabled": false,
  "browser.region.network.url": NOWHERE,
  "browser.safebrowsing.blockedURIs.enabled": false,
  "browser.safebrowsing.downloads.enabled": false,
  "browser.safebrowsing.malware.enabled": false,
  "browser.safebrowsing.phishing.enabled": false,
  "browser.safebrowsing.update.enabled": false,
  "browser.search.update": false,
  "browser.sessionstore.resume_from_crash": false,
  "browser.shell.checkDefaultBrowser": false,
  "browser.startup.homepage_override.mstone": "ignore",
  "browser.startup.page": 0,
  "browser.topsites.contile.enabled": false,
  "datareporting.policy.dataSubmissionEnabled": false,
  "extensions.getAddons.cache.enabled": false,
  "extensions.systemAddon.update.enabled": false,
  "extensions.update.enabled": false,
  "geo.provider.network.url": NOWHERE,
  "media.gmp-manager.url": NOWHERE,
  "network.captive-portal-service.enabled": false,
  "network.connectivity-service.enabled": false,
  "network.dns.disablePrefetch": true,
  "network.http.speculative-parallel-limit": 0,
  "network.prefetch-next": false,
  "security.OCSP.enabled": 0,
  "services.settings.server": "data:,#remote-settings-dummy/v1",
  "toolkit.telemetry.enabled": false,
  "toolkit.telemetry.server": NOWHERE,
};

const AS_THE_ENGINE = {
  "browser.cache.disk.enable": false,
  "browser.cache.memory.enable": false,
  "dom.security.https_first": false,
  "dom.security.https_only_mode": false,
  "media.autoplay.default": 0,
  "network.auth.subresource-http-auth-allow": 0,
  "network.cookie.cookieBehavior": 0,
  "network.http.http2.enabled": false,
  "network.http.http3.enable": false,
  "network.lna.blocking": false,
  "network.lna.enabled": false,
  "network.trr.mode": 5,
  "privacy.trackingprotection.enabled": false,
  "security.cert_pinning.enforcement_level": 0,
};

function prefsFor(port) {
  return { ...QUIET, ...AS_THE_ENGINE, "marionette.port": 0,
    "network.proxy.type": 1, "network.proxy.socks": "127.0.0.1", "network.proxy.socks_port": port,
    "network.proxy.socks_version": 5, "network.proxy.socks_remote_dns": true, "network.proxy.socks5_remote_dns": true,
    "network.proxy.no_proxies_on": "", "network.proxy.allow_hijacking_localhost": true };
}

module.exports = { prefsFor };
