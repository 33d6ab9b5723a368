import java.io.IOException;
import java.io.OutputStream;
import java.io.PrintWriter;
import java.math.BigInteger;
import java.nio.charset.StandardCharsets;
import java.nio.file.Files;
import java.nio.file.Path;
import java.util.ArrayList;
import java.util.Arrays;
import java.util.Date;
import java.util.HexFormat;
import java.util.List;
import java.util.Random;
import org.bouncycastle.asn1.ASN1Encodable;
import org.bouncycastle.asn1.ASN1EncodableVector;
import org.bouncycastle.asn1.ASN1GeneralizedTime;
import org.bouncycastle.asn1.ASN1Integer;
import org.bouncycastle.asn1.ASN1ObjectIdentifier;
import org.bouncycastle.asn1.DERBitString;
import org.bouncycastle.asn1.DERIA5String;
import org.bouncycastle.asn1.DERNull;
import org.bouncycastle.asn1.DEROctetString;
import org.bouncycastle.asn1.DERSequence;
import org.bouncycastle.asn1.DERSet;
import org.bouncycastle.asn1.DERTaggedObject;
import org.bouncycastle.asn1.DERUTF8String;
import org.bouncycastle.asn1.cmp.CertConfirmContent;
import org.bouncycastle.asn1.cmp.CMPCertificate;
import org.bouncycastle.asn1.cmp.CertRepMessage;
import org.bouncycastle.asn1.cmp.CertResponse;
import org.bouncycastle.asn1.cmp.CertStatus;
import org.bouncycastle.asn1.cmp.CMPObjectIdentifiers;
import org.bouncycastle.asn1.cmp.ErrorMsgContent;
import org.bouncycastle.asn1.cmp.GenMsgContent;
import org.bouncycastle.asn1.cmp.GenRepContent;
import org.bouncycastle.asn1.cmp.InfoTypeAndValue;
import org.bouncycastle.asn1.cmp.PKIBody;
import org.bouncycastle.asn1.cmp.PKIConfirmContent;
import org.bouncycastle.asn1.cmp.PKIFailureInfo;
import org.bouncycastle.asn1.cmp.PKIFreeText;
import org.bouncycastle.asn1.cmp.PKIHeader;
import org.bouncycastle.asn1.cmp.PKIHeaderBuilder;
import org.bouncycastle.asn1.cmp.PKIMessage;
import org.bouncycastle.asn1.cmp.PKIMessages;
import org.bouncycastle.asn1.cmp.PKIStatus;
import org.bouncycastle.asn1.cmp.PKIStatusInfo;
import org.bouncycastle.asn1.cmp.PollRepContent;
import org.bouncycastle.asn1.cmp.PollReqContent;
import org.bouncycastle.asn1.cmp.RevDetails;
import org.bouncycastle.asn1.cmp.RevRepContentBuilder;
import org.bouncycastle.asn1.cmp.RevReqContent;
import org.bouncycastle.asn1.crmf.CertId;
import org.bouncycastle.asn1.crmf.CertReqMessages;
import org.bouncycastle.asn1.crmf.CertReqMsg;
import org.bouncycastle.asn1.crmf.CertRequest;
import org.bouncycastle.asn1.crmf.CertTemplateBuilder;
import org.bouncycastle.asn1.crmf.POPOSigningKey;
import org.bouncycastle.asn1.crmf.ProofOfPossession;
import org.bouncycastle.asn1.pkcs.CertificationRequest;
import org.bouncycastle.asn1.pkcs.CertificationRequestInfo;
import org.bouncycastle.asn1.pkcs.PBMAC1Params;
import org.bouncycastle.asn1.pkcs.PKCSObjectIdentifiers;
import org.bouncycastle.asn1.x500.X500Name;
import org.bouncycastle.asn1.x509.AlgorithmIdentifier;
import org.bouncycastle.asn1.x509.Certificate;
import org.bouncycastle.asn1.x509.GeneralName;
import org.bouncycastle.asn1.x509.SubjectPublicKeyInfo;
import org.bouncycastle.asn1.x509.Time;
import org.bouncycastle.asn1.x509.V2TBSCertListGenerator;
import org.bouncycastle.asn1.x509.V3TBSCertificateGenerator;
import org.bouncycastle.cert.X509CertificateHolder;
import org.bouncycastle.cert.cmp.GeneralPKIMessage;
import org.bouncycastle.cert.cmp.ProtectedPKIMessage;
import org.bouncycastle.cert.cmp.ProtectedPKIMessageBuilder;
import org.bouncycastle.crypto.digests.SHA256Digest;
import org.bouncycastle.crypto.generators.PKCS5S2ParametersGenerator;
import org.bouncycastle.crypto.io.MacOutputStream;
import org.bouncycastle.crypto.macs.HMac;
import org.bouncycastle.crypto.params.KeyParameter;
import org.bouncycastle.jce.provider.BouncyCastleProvider;
import org.bouncycastle.operator.GenericKey;
import org.bouncycastle.operator.MacCalculator;
import org.bouncycastle.pkcs.jcajce.JcePBMac1CalculatorBuilder;
import org.bouncycastle.pkcs.jcajce.JcePBMac1CalculatorProviderBuilder;

/**
 * Makes CMP messages with Bouncy Castle, protected by PBMAC1 and unprotected, from a fixed seed.
 *
 * <p>The one argument is a folder. Each message becomes a file there, and a line of the file {@code index}:
 * file, secret in hexadecimal, Bouncy Castle's own verdict and a title, with tabs between.
 */
public final class Messages {
    private static final BouncyCastleProvider PROVIDER = new BouncyCastleProvider();
    private static final AlgorithmIdentifier HMAC_SHA256 =
            new AlgorithmIdentifier(PKCSObjectIdentifiers.id_hmacWithSHA256, DERNull.INSTANCE);
    private static final AlgorithmIdentifier HSS_LMS =
            new AlgorithmIdentifier(new ASN1ObjectIdentifier("1.2.840.113549.1.9.16.3.17"));
    private static final X500Name NAME = new X500Name("CN=device-1,O=Fleet");
    /** Times that a header may have, and behind them times that aren't in DER's form, or before 1970. */
    private static final String[] TIMES = {"20231114221320Z", "19700101000000Z", "99991231235959Z", "20240229235959Z", "20000229000000Z",
        "20231114221320.5Z", "20231114221320+0100", "202311142213Z", "19691231235959Z"};
    private static final int GOOD_TIMES = 5;
    private static final String[][] TEXTS = {{"first"}, {"first", "zweite \u00fc", "\u20ac \ud83d\ude00"}, {""}, {"long ".repeat(60), "", "last"}};

    private final Random random = new Random(20240229);
    private final Path folder;
    private final PrintWriter index;
    private int count;

    private Messages(Path folder, PrintWriter index) {
        this.folder = folder;
        this.index = index;
    }

    public static void main(String[] words) throws Exception {
        Path folder = Path.of(words[0]);
        Files.createDirectories(folder);
        try (PrintWriter index = new PrintWriter(folder.resolve("index").toFile(), StandardCharsets.UTF_8)) {
            Messages messages = new Messages(folder, index);
            messages.makeByBuilder();
            messages.makeByHeader();
            messages.makeByFields();
            messages.makeByParameters();
            messages.makeRefused();
        }
    }

    // Messages of Bouncy Castle's own builder, with bodies of each type

    private void makeByBuilder() throws Exception {
        List<PKIBody> bodies = bodies();
        List<GeneralName> names = names();
        for (int i = 0; i < bodies.size(); i++) {
            PKIBody body = bodies.get(i);
            String secret = i % 3 == 0 ? "secret-1" : i % 3 == 1 ? "a longer secret, 37 octets, \u00e9\u00df\u20ac" : "0123456789abcdef".repeat(4);
            for (int variant = 0; variant < 2; variant++) {
                GeneralName sender = names.get((i + variant) % names.size());
                GeneralName recipient = names.get((2 * i + 5 * variant + 1) % names.size());
                ProtectedPKIMessageBuilder builder = new ProtectedPKIMessageBuilder(2 + variant, sender, recipient).setBody(body);
                setFields(builder, variant == 0 ? i : 31 - i % 32, variant);
                if (i % 2 == variant) {
                    builder.addCMPCertificate(certificate());
                }
                byte[] octets = secret.getBytes(StandardCharsets.UTF_8);
                MacCalculator mac = new Pbmac1(octets, octets(8 + (7 * i + variant) % 57), 1 + random.nextInt(300), false, variant == 0);
                keep(builder.build(mac).toASN1Structure().getEncoded("DER"), octets,
                        "builder, body " + body.getType() + ", sender " + sender.getTagNo() + ", recipient " + recipient.getTagNo());
            }
        }
        for (int kind = 0; kind < 3; kind++) {
            ProtectedPKIMessageBuilder builder = new ProtectedPKIMessageBuilder(names.get(4), names.get(4))
                    .setBody(new PKIBody(PKIBody.TYPE_CONFIRM, new PKIConfirmContent()));
            if (kind == 0) {
                builder.setMessageTime(new Date(1_700_000_000_000L));
            } else if (kind == 1) {
                builder.setFreeText(new PKIFreeText(new String[] {"first", "zweite \u00fc"}));
            } else {
                builder.addGeneralInfo(new InfoTypeAndValue(CMPObjectIdentifiers.it_implicitConfirm, DERNull.INSTANCE));
            }
            MacCalculator mac = new Pbmac1(ascii("secret-1"), octets(16), 100, false, true);
            keep(builder.build(mac).toASN1Structure().getEncoded("DER"), ascii("secret-1"),
                    "builder, " + new String[] {"messageTime", "freeText", "generalInfo"}[kind]);
        }
    }

    private void setFields(ProtectedPKIMessageBuilder builder, int choice, int variant) {
        if ((choice & 1) != 0) {
            builder.setSenderKID(ascii("dev-1"));
        }
        if ((choice & 2) != 0) {
            builder.setRecipKID(octets(20));
        }
        if ((choice & 4) != 0) {
            builder.setTransactionID(octets(variant == 0 ? 16 : 64));
        }
        if ((choice & 8) != 0) {
            builder.setSenderNonce(octets(variant == 0 ? 16 : 200));
        }
        if ((choice & 16) != 0) {
            builder.setRecipNonce(octets(variant == 0 ? 16 : 0));
        }
    }

    private List<GeneralName> names() throws IOException {
        return List.of(
                new GeneralName(GeneralName.directoryName, NAME),
                new GeneralName(GeneralName.directoryName, new X500Name(new org.bouncycastle.asn1.x500.RDN[0])),
                new GeneralName(GeneralName.otherName, new DERSequence(new ASN1Encodable[] {
                    new ASN1ObjectIdentifier("1.3.6.1.4.1.311.20.2.3"), new DERTaggedObject(true, 0, new DERUTF8String("dev@fleet"))})),
                new GeneralName(GeneralName.rfc822Name, "device@fleet.example"),
                new GeneralName(GeneralName.dNSName, "device.fleet.example"),
                new GeneralName(GeneralName.x400Address, new DERSequence(new DERSequence())),
                new GeneralName(GeneralName.ediPartyName, new DERSequence(new DERTaggedObject(true, 1, new DERUTF8String("party")))),
                new GeneralName(GeneralName.uniformResourceIdentifier, "urn:device:1"),
                new GeneralName(GeneralName.iPAddress, "192.0.2.1"),
                new GeneralName(GeneralName.registeredID, "1.2.3.4.5"));
    }

    private List<PKIBody> bodies() throws IOException {
        List<PKIBody> bodies = new ArrayList<>();
        CertReqMessages requests = requests();
        for (int type : new int[] {PKIBody.TYPE_INIT_REQ, PKIBody.TYPE_CERT_REQ, PKIBody.TYPE_KEY_UPDATE_REQ}) {
            bodies.add(new PKIBody(type, requests));
        }
        PKIStatusInfo accepted = new PKIStatusInfo(PKIStatus.granted);
        PKIStatusInfo rejected = new PKIStatusInfo(PKIStatus.rejection, new PKIFreeText("badPOP"), new PKIFailureInfo(PKIFailureInfo.badPOP));
        CertResponse response = new CertResponse(new ASN1Integer(0), rejected);
        for (int type : new int[] {PKIBody.TYPE_INIT_REP, PKIBody.TYPE_CERT_REP, PKIBody.TYPE_KEY_UPDATE_REP}) {
            bodies.add(new PKIBody(type, new CertRepMessage(null, new CertResponse[] {response})));
        }
        bodies.add(new PKIBody(PKIBody.TYPE_P10_CERT_REQ, new CertificationRequest(
                new CertificationRequestInfo(NAME, key(), new DERSet()), HSS_LMS, new DERBitString(octets(1296)))));
        bodies.add(new PKIBody(PKIBody.TYPE_REVOCATION_REQ, new RevReqContent(new RevDetails(
                new CertTemplateBuilder().setIssuer(NAME).setSerialNumber(new ASN1Integer(3)).build()))));
        bodies.add(new PKIBody(PKIBody.TYPE_REVOCATION_REP, new RevRepContentBuilder().add(accepted).build()));
        bodies.add(new PKIBody(PKIBody.TYPE_CONFIRM, new PKIConfirmContent()));
        PKIHeader inner = new PKIHeaderBuilder(2, names().get(0), names().get(1)).build();
        bodies.add(new PKIBody(PKIBody.TYPE_NESTED,
                new PKIMessages(new PKIMessage(inner, new PKIBody(PKIBody.TYPE_CONFIRM, new PKIConfirmContent())))));
        bodies.add(new PKIBody(PKIBody.TYPE_GEN_MSG, new GenMsgContent(new InfoTypeAndValue(new ASN1ObjectIdentifier("1.3.6.1.5.5.7.4.17")))));
        bodies.add(new PKIBody(PKIBody.TYPE_GEN_REP, new GenRepContent(
                new InfoTypeAndValue(new ASN1ObjectIdentifier("1.3.6.1.5.5.7.4.17"), new DERSequence()))));
        bodies.add(new PKIBody(PKIBody.TYPE_ERROR, new ErrorMsgContent(rejected, new ASN1Integer(17), new PKIFreeText("details"))));
        bodies.add(new PKIBody(PKIBody.TYPE_CERT_CONFIRM, CertConfirmContent.getInstance(
                new DERSequence(new CertStatus(octets(32), BigInteger.ZERO, accepted)))));
        bodies.add(new PKIBody(PKIBody.TYPE_POLL_REQ, new PollReqContent(new ASN1Integer(-1))));
        bodies.add(new PKIBody(PKIBody.TYPE_POLL_REP, new PollRepContent(new ASN1Integer(0), new ASN1Integer(60))));
        return bodies;
    }

    private CertReqMessages requests() throws IOException {
        CertRequest request = new CertRequest(0, new CertTemplateBuilder().setSubject(NAME).setPublicKey(key()).build(), null);
        POPOSigningKey proof = new POPOSigningKey(null, HSS_LMS, new DERBitString(octets(1296)));
        return new CertReqMessages(new CertReqMsg(request, new ProofOfPossession(proof), null));
    }

    private SubjectPublicKeyInfo key() throws IOException {
        return new SubjectPublicKeyInfo(HSS_LMS, octets(60));
    }

    private X509CertificateHolder certificate() throws IOException {
        V3TBSCertificateGenerator plan = new V3TBSCertificateGenerator();
        plan.setSerialNumber(new ASN1Integer(random.nextInt(1000)));
        plan.setSignature(HSS_LMS);
        plan.setIssuer(NAME);
        plan.setSubject(NAME);
        plan.setStartDate(new Time(new Date(1_700_000_000_000L)));
        plan.setEndDate(new Time(new Date(1_800_000_000_000L)));
        plan.setSubjectPublicKeyInfo(key());
        return new X509CertificateHolder(Certificate.getInstance(new DERSequence(
                new ASN1Encodable[] {plan.generateTBSCertificate(), HSS_LMS, new DERBitString(octets(64))})));
    }

    // Headers of Bouncy Castle with bodies of any content, tags 0 to 26

    private void makeByHeader() throws Exception {
        List<GeneralName> names = names();
        for (int tag = 0; tag <= 26; tag++) {
            byte[] secret = octets(8 + tag * 2);
            PKIHeaderBuilder header = new PKIHeaderBuilder(tag * 11 - 20, names.get(tag % names.size()), names.get((tag * 3 + 2) % names.size()));
            setFields(header, (tag * 5 + 3) % 32);
            ASN1Encodable extra = tag % 3 == 0 ? new DERSequence() : tag % 3 == 1 ? new DEROctetString(octets(tag)) : null;
            byte[] message = protect(header, content(tag), tag, extra, secret, octets(8 + 2 * tag), 1 + tag * tag, tag % 2 == 0, tag % 4 < 2);
            keep(message, secret, "header, body " + tag + ", sender " + names.get(tag % names.size()).getTagNo());
        }
        PKIHeaderBuilder timed = new PKIHeaderBuilder(2, names.get(0), names.get(0)).setMessageTime(new ASN1GeneralizedTime("20231114221320Z"));
        setFields(timed, 31);
        keep(protect(timed, content(3), 24, null, ascii("secret-1"), octets(8), 1, true, true), ascii("secret-1"), "header, messageTime and every field");
    }

    private void setFields(PKIHeaderBuilder header, int choice) {
        if ((choice & 1) != 0) {
            header.setSenderKID(octets(choice));
        }
        if ((choice & 2) != 0) {
            header.setRecipKID(octets(2 * choice));
        }
        if ((choice & 4) != 0) {
            header.setTransactionID(octets(64));
        }
        if ((choice & 8) != 0) {
            header.setSenderNonce(octets(130));
        }
        if ((choice & 16) != 0) {
            header.setRecipNonce(octets(300));
        }
    }

    private ASN1Encodable content(int choice) {
        return switch (choice % 7) {
            case 0 -> DERNull.INSTANCE;
            case 1 -> new DEROctetString(octets(40_000));
            case 2 -> new DERSequence();
            case 3 -> new DERSequence(new ASN1Encodable[] {new ASN1Integer(7), new DERSet(new DERIA5String("in a set"))});
            case 4 -> new DERUTF8String("text \u00e9");
            case 5 -> new DERTaggedObject(false, 30, new DEROctetString(octets(300)));
            default -> new DERBitString(octets(9), 3 & ~3);
        };
    }

    // Headers with each set of fields, bodies of each tag, protected and not

    private void makeByFields() throws Exception {
        List<GeneralName> names = names();
        List<PKIBody> bodies = bodies();
        bodies.addAll(otherBodies());
        for (int i = 0; i < bodies.size(); i++) {
            PKIBody body = bodies.get(i);
            for (int variant = 0; variant < 4; variant++) {
                // Every field, none, a set of them, and a set with a time that may be odd. A builder keeps no field once it has built.
                int choice = variant == 0 ? 0xFF : variant == 1 ? 0 : random.nextInt(0x100) | (variant == 3 ? 0x20 : 0);
                String title = String.format(", body %d, fields %02x", body.getType(), choice);
                PKIHeaderBuilder[] headers = new PKIHeaderBuilder[2];
                for (int k = 0; k < 2; k++) {
                    headers[k] = new PKIHeaderBuilder(variant + 1, names.get((i + variant) % names.size()), names.get((3 * i + variant) % names.size()));
                    setAllFields(headers[k], choice, variant == 3 ? i : i % GOOD_TIMES);
                }
                keep(new PKIMessage(headers[0].build(), body).getEncoded("DER"), ascii("secret-1"), "unprotected" + title);
                ASN1Encodable extra = variant == 2 ? new DERSequence(certificate().toASN1Structure()) : null;
                byte[] secret = octets(8 + i);
                keep(protect(headers[1], body.getContent(), body.getType(), extra, secret, octets(16), 1 + i, i % 2 == 0, true),
                        secret, "protected" + title);
            }
        }
    }

    private void setAllFields(PKIHeaderBuilder header, int choice, int time) throws IOException {
        setFields(header, choice & 0x1F);
        if ((choice & 0x20) != 0) {
            header.setMessageTime(new ASN1GeneralizedTime(TIMES[time % TIMES.length]));
        }
        if ((choice & 0x40) != 0) {
            header.setFreeText(new PKIFreeText(TEXTS[random.nextInt(TEXTS.length)]));
        }
        if ((choice & 0x80) != 0) {
            header.setGeneralInfo(infos(1 + random.nextInt(6)));
        }
    }

    private InfoTypeAndValue[] infos(int count) throws IOException {
        PKIHeader inner = new PKIHeaderBuilder(2, names().get(0), names().get(1)).build();
        List<InfoTypeAndValue> all = List.of(
                new InfoTypeAndValue(CMPObjectIdentifiers.it_implicitConfirm, DERNull.INSTANCE),
                new InfoTypeAndValue(CMPObjectIdentifiers.it_confirmWaitTime, new ASN1GeneralizedTime("20231114221320Z")),
                new InfoTypeAndValue(CMPObjectIdentifiers.it_origPKIMessage,
                        new PKIMessages(new PKIMessage(inner, new PKIBody(PKIBody.TYPE_CONFIRM, new PKIConfirmContent())))),
                new InfoTypeAndValue(new ASN1ObjectIdentifier("1.3.6.1.5.5.7.4.17")),
                new InfoTypeAndValue(new ASN1ObjectIdentifier("1.3.6.1.4.1.32473.1"), new DERUTF8String("a profile")),
                new InfoTypeAndValue(new ASN1ObjectIdentifier("2.999.1.300"), new DERTaggedObject(false, 3, new DEROctetString(octets(140)))));
        return all.subList(0, count).toArray(new InfoTypeAndValue[0]);
    }

    /** Bodies of the tags that the service doesn't look into, as RFC 9810, 5.3 has them. */
    private List<PKIBody> otherBodies() throws Exception {
        PKIStatusInfo accepted = new PKIStatusInfo(PKIStatus.granted);
        CMPCertificate certificate = new CMPCertificate(certificate().toASN1Structure());
        V2TBSCertListGenerator list = new V2TBSCertListGenerator();
        list.setSignature(HSS_LMS);
        list.setIssuer(NAME);
        list.setThisUpdate(new Time(new Date(1_700_000_000_000L)));
        DERSequence crl = new DERSequence(new ASN1Encodable[] {list.generateTBSCertList(), HSS_LMS, new DERBitString(octets(64))});
        DERSequence revoked = new DERSequence(new ASN1Encodable[] {
            PKIStatus.revocationNotification, new CertId(new GeneralName(NAME), BigInteger.TWO),
            new ASN1GeneralizedTime("20231114221320Z"), new ASN1GeneralizedTime("20231114221320Z")});
        return List.of(
                new PKIBody(PKIBody.TYPE_POPO_CHALL, new DERSequence(new DERSequence(
                        new ASN1Encodable[] {new DEROctetString(octets(32)), new DEROctetString(octets(128))}))),
                new PKIBody(PKIBody.TYPE_POPO_REP, new DERSequence(new ASN1Integer(77))),
                new PKIBody(PKIBody.TYPE_KEY_RECOVERY_REQ, requests()),
                new PKIBody(PKIBody.TYPE_KEY_RECOVERY_REP, new DERSequence(accepted)),
                new PKIBody(PKIBody.TYPE_CROSS_CERT_REQ, requests()),
                new PKIBody(PKIBody.TYPE_CROSS_CERT_REP,
                        new CertRepMessage(null, new CertResponse[] {new CertResponse(new ASN1Integer(0), accepted)})),
                new PKIBody(PKIBody.TYPE_CA_KEY_UPDATE_ANN, new DERSequence(new ASN1Encodable[] {certificate, certificate, certificate})),
                new PKIBody(PKIBody.TYPE_CERT_ANN, certificate),
                new PKIBody(PKIBody.TYPE_REVOCATION_ANN, revoked),
                new PKIBody(PKIBody.TYPE_CRL_ANN, new DERSequence(crl)));
    }

    // Parameters of PBMAC1 at and past the ends of their ranges

    private void makeByParameters() throws Exception {
        byte[] secret = ascii("secret-1");
        for (int size : new int[] {7, 8, 9, 63, 64, 65}) {
            keep(confirm(secret, octets(size), 1, false, true), secret, "salt of " + size + " octets");
        }
        for (int rounds : new int[] {0, 1, 2, 127, 128, 255, 256, 32_767, 32_768, 65_535, 65_536, 199_999, 200_000, 200_001}) {
            keep(confirm(secret, octets(8), rounds, rounds == 1, true), secret, rounds + " rounds");
        }
        for (int choice = 0; choice < 4; choice++) {
            keep(confirm(secret, octets(8), 5, choice % 2 == 0, choice / 2 == 0), secret,
                    "keyLength " + (choice % 2 == 0 ? "absent" : "32") + ", parameters of the MAC " + (choice / 2 == 0 ? "NULL" : "absent"));
        }
        for (int size : new int[] {8, 9, 32, 63, 64}) {
            byte[] own = ascii("0123456789abcdef".repeat(4).substring(0, size));
            keep(confirm(own, octets(20), 3, false, true), own, "secret of " + size + " octets");
        }
    }

    private byte[] confirm(byte[] secret, byte[] salt, int rounds, boolean noLength, boolean withNull) throws Exception {
        PKIHeaderBuilder header = new PKIHeaderBuilder(2, names().get(0), names().get(1)).setSenderKID(ascii("dev-1"));
        return protect(header, DERNull.INSTANCE, PKIBody.TYPE_CONFIRM, null, secret, salt, rounds, noLength, withNull);
    }

    private byte[] protect(PKIHeaderBuilder builder, ASN1Encodable content, int tag, ASN1Encodable extra, byte[] secret, byte[] salt,
            int rounds, boolean noLength, boolean withNull) throws IOException {
        Pbmac1 mac = new Pbmac1(secret, salt, rounds, noLength, withNull);
        PKIHeader header = builder.setProtectionAlg(mac.getAlgorithmIdentifier()).build();
        DERTaggedObject body = new DERTaggedObject(true, tag, content);
        mac.getOutputStream().write(new DERSequence(new ASN1Encodable[] {header, body}).getEncoded("DER"));
        ASN1EncodableVector parts = new ASN1EncodableVector();
        parts.add(header);
        parts.add(body);
        parts.add(new DERTaggedObject(true, 0, new DERBitString(mac.getMac())));
        if (extra != null) {
            parts.add(new DERTaggedObject(true, 1, extra));
        }
        return new DERSequence(parts).getEncoded("DER");
    }

    // Messages that must not verify

    private void makeRefused() throws Exception {
        byte[] secret = ascii("secret-1");
        List<GeneralName> names = names();
        PKIBody body = new PKIBody(PKIBody.TYPE_CONFIRM, new PKIConfirmContent());
        PKIHeader bare = new PKIHeaderBuilder(2, names.get(0), names.get(1)).build();
        keep(new PKIMessage(bare, body).getEncoded("DER"), secret, "neither protection nor protectionAlg");
        keep(new PKIMessage(bare, body, new DERBitString(octets(32))).getEncoded("DER"), secret, "protection without protectionAlg");
        for (String other : new String[] {"1.2.840.113533.7.66.13", "1.2.840.113549.1.1.11", "1.2.840.113549.1.9.16.3.17", "1.2.840.113549.1.5.14"}) {
            PKIHeader header = new PKIHeaderBuilder(2, names.get(0), names.get(1))
                    .setProtectionAlg(new AlgorithmIdentifier(new ASN1ObjectIdentifier(other))).build();
            keep(new PKIMessage(header, body, new DERBitString(octets(32))).getEncoded("DER"), secret, "algorithm " + other + " without parameters");
            keep(new PKIMessage(header, body).getEncoded("DER"), secret, "algorithm " + other + " without protection");
        }
        // Bouncy Castle 1.72 names PBES2 in the place of PBKDF2 here, and doesn't look at that name when it checks.
        for (String[] algorithm : new String[][] {{"HmacSHA512", "512"}, {"HmacSHA256", "256"}, {"HmacSHA256", "128"}, {"HmacSHA1", "160"}}) {
            MacCalculator calculator = new JcePBMac1CalculatorBuilder(algorithm[0], Integer.parseInt(algorithm[1])).setProvider(PROVIDER)
                    .setSalt(octets(16)).setIterationCount(10).build("secret-1".toCharArray());
            keep(new ProtectedPKIMessageBuilder(names.get(0), names.get(1)).setBody(body).build(calculator).toASN1Structure().getEncoded("DER"),
                    secret, "Bouncy Castle's own PBMAC1, " + algorithm[0] + " with a key of " + algorithm[1] + " bits");
        }
        byte[] good = confirm(secret, octets(8), 1, false, true);
        keep(good, ascii("secret-2"), "another secret");
        keep(good, ascii("secret-1\0"), "the secret and an octet 0, which HMAC can't tell from the secret");
        keep(good, ascii("secret-11"), "the secret and an octet more");
        byte[] changed = good.clone();
        changed[changed.length - 1] ^= 1;
        keep(changed, secret, "the last octet of the MAC changed");
    }

    // Keeping

    private void keep(byte[] message, byte[] secret, String title) throws IOException {
        String file = String.format("%03d.der", count++);
        Files.write(folder.resolve(file), message);
        index.println(String.join("\t", file, HexFormat.of().formatHex(secret), verdict(message, secret), title));
    }

    /** What Bouncy Castle itself says: verified, refused, or unread where it can't read or check the message. */
    private static String verdict(byte[] message, byte[] secret) {
        String text = new String(secret, StandardCharsets.UTF_8);
        if (!Arrays.equals(text.getBytes(StandardCharsets.UTF_8), secret)) {
            return "unread";
        }
        try {
            ProtectedPKIMessage read = new ProtectedPKIMessage(new GeneralPKIMessage(message));
            boolean valid = read.verify(new JcePBMac1CalculatorProviderBuilder().setProvider(PROVIDER).build(), text.toCharArray());
            return valid ? "verified" : "refused";
        } catch (Exception fault) {
            return "unread";
        }
    }

    private byte[] octets(int count) {
        byte[] octets = new byte[count];
        random.nextBytes(octets);
        return octets;
    }

    private static byte[] ascii(String text) {
        return text.getBytes(StandardCharsets.US_ASCII);
    }

    /** PBMAC1 over PBKDF2 and HMAC-SHA-256 (RFC 8018, A.5), by Bouncy Castle's derivation and MAC. */
    private static final class Pbmac1 implements MacCalculator {
        private final AlgorithmIdentifier algorithm;
        private final HMac mac = new HMac(new SHA256Digest());
        private final KeyParameter key;

        /** A count below 1 is written as it is, and the MAC is made with 1. */
        Pbmac1(byte[] secret, byte[] salt, int rounds, boolean noLength, boolean withNull) {
            AlgorithmIdentifier prf = withNull ? HMAC_SHA256 : new AlgorithmIdentifier(PKCSObjectIdentifiers.id_hmacWithSHA256);
            ASN1EncodableVector parts = new ASN1EncodableVector();
            parts.add(new DEROctetString(salt));
            parts.add(new ASN1Integer(rounds));
            if (!noLength) {
                parts.add(new ASN1Integer(32));
            }
            parts.add(prf);
            AlgorithmIdentifier derivation = new AlgorithmIdentifier(PKCSObjectIdentifiers.id_PBKDF2, new DERSequence(parts));
            algorithm = new AlgorithmIdentifier(PKCSObjectIdentifiers.id_PBMAC1, new PBMAC1Params(derivation, prf));
            PKCS5S2ParametersGenerator generator = new PKCS5S2ParametersGenerator(new SHA256Digest());
            generator.init(secret, salt, Math.max(rounds, 1));
            key = new KeyParameter(((KeyParameter) generator.generateDerivedMacParameters(256)).getKey());
            mac.init(key);
        }

        @Override
        public AlgorithmIdentifier getAlgorithmIdentifier() {
            return algorithm;
        }

        @Override
        public OutputStream getOutputStream() {
            return new MacOutputStream(mac);
        }

        @Override
        public byte[] getMac() {
            byte[] value = new byte[32];
            mac.doFinal(value, 0);
            return value;
        }

        @Override
        public GenericKey getKey() {
            return new GenericKey(algorithm, key.getKey());
        }
    }
}
